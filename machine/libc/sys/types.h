/* See ../stddef.h. */
#ifndef HOST_SYS_TYPES_H
#define HOST_SYS_TYPES_H
typedef long ssize_t;
typedef long off_t;
#endif
