/* See stddef.h. The lengths are those of x86-64. */
#ifndef HOST_UCONTEXT_H
#define HOST_UCONTEXT_H
#include <stddef.h>
typedef struct {
    void *ss_sp;
    int ss_flags;
    size_t ss_size;
} stack_t;
typedef struct ucontext {
    unsigned long uc_flags;
    struct ucontext *uc_link;
    stack_t uc_stack;
    unsigned long rest[116];
} ucontext_t;
int getcontext(ucontext_t *);
int swapcontext(ucontext_t *, const ucontext_t *);
void makecontext(ucontext_t *, void (*)(void), int, ...);
#endif
