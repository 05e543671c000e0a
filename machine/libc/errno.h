/* See stddef.h. */
#ifndef HOST_ERRNO_H
#define HOST_ERRNO_H
#define EINTR 4
#define EEXIST 17
#define ENOSPC 28
#define errno (*__errno_location())
int *__errno_location(void);
#endif
