/* How much stack a function takes: it is run on a painted stack of its own, and the paint that is gone is counted. */
#define _XOPEN_SOURCE 700
#include <stddef.h>
#include <stdint.h>
#include <string.h>
#include <ucontext.h>

enum { SIZE = 1 << 18, PAINT = 0xA5 };

static unsigned char stack[SIZE];
static ucontext_t here, there;
static void (*job)(void);

static void run_job(void) { job(); }

size_t stack_of(void (*function)(void)) {
    memset(stack, PAINT, SIZE);
    job = function;
    if (getcontext(&there) != 0) return 0;
    there.uc_stack.ss_sp = stack;
    there.uc_stack.ss_size = SIZE;
    there.uc_link = &here;
    makecontext(&there, run_job, 0);
    if (swapcontext(&here, &there) != 0) return 0;
    size_t left = 0; /* the stack grows down: the paint at the low end is left */
    while (left < SIZE && stack[left] == PAINT) left++;
    return SIZE - left;
}
