/* See ../stddef.h. The numbers are those of Linux on x86-64. */
#ifndef HOST_SYS_SOCKET_H
#define HOST_SYS_SOCKET_H
#include <stddef.h>
#include <sys/types.h>
#define AF_UNIX 1
#define SOCK_STREAM 1
#define MSG_DONTWAIT 0x40
#define MSG_NOSIGNAL 0x4000
typedef unsigned socklen_t;
struct sockaddr {
    unsigned short sa_family;
    char sa_data[14];
};
int socket(int, int, int);
int bind(int, const struct sockaddr *, socklen_t);
int listen(int, int);
int accept(int, struct sockaddr *, socklen_t *);
ssize_t recv(int, void *, size_t, int);
ssize_t send(int, const void *, size_t, int);
#endif
