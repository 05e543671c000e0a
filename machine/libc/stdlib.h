/* See stddef.h. */
#ifndef HOST_STDLIB_H
#define HOST_STDLIB_H
#include <stddef.h>
void *malloc(size_t);
void free(void *);
void exit(int) __attribute__((noreturn));
#endif
