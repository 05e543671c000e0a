/* See ../stddef.h. The places are those of Linux on x86-64. */
#ifndef HOST_SYS_STAT_H
#define HOST_SYS_STAT_H
struct stat {
    unsigned long st_dev, st_ino, st_nlink;
    unsigned st_mode, st_uid;
    unsigned long rest[14];
};
int fstat(int, struct stat *);
int fchmod(int, unsigned);
#endif
