/* See stddef.h. The numbers are those of Linux on x86-64. */
#ifndef HOST_FCNTL_H
#define HOST_FCNTL_H
#define O_RDONLY 0
#define O_RDWR 2
#define O_CREAT 0100
#define O_EXCL 0200
#define O_TRUNC 01000
int open(const char *, int, ...);
#endif
