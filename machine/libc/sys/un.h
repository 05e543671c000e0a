/* See ../stddef.h. */
#ifndef HOST_SYS_UN_H
#define HOST_SYS_UN_H
struct sockaddr_un {
    unsigned short sun_family;
    char sun_path[108];
};
#endif
