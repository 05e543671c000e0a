/* See stddef.h. The numbers are those of Linux on x86-64. */
#ifndef HOST_POLL_H
#define HOST_POLL_H
#define POLLIN 1
struct pollfd {
    int fd;
    short events, revents;
};
int poll(struct pollfd *, unsigned long, int);
#endif
