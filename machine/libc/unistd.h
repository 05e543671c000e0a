/* See stddef.h. The numbers are those of Linux on x86-64. */
#ifndef HOST_UNISTD_H
#define HOST_UNISTD_H
#include <stddef.h>
#include <sys/types.h>
#define F_OK 0
#define F_TLOCK 2
#define SEEK_END 2
int access(const char *, int);
int close(int);
int fsync(int);
int ftruncate(int, off_t);
int lockf(int, int, off_t);
off_t lseek(int, off_t, int);
ssize_t pread(int, void *, size_t, off_t);
ssize_t pwrite(int, const void *, size_t, off_t);
int unlink(const char *);
#endif
