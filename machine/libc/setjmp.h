/* See stddef.h. The length is that of x86-64. */
#ifndef HOST_SETJMP_H
#define HOST_SETJMP_H
typedef struct {
    unsigned long room[25];
} jmp_buf[1];
int _setjmp(jmp_buf) __attribute__((returns_twice));
void longjmp(jmp_buf, int) __attribute__((noreturn));
#define setjmp(place) _setjmp(place)
#endif
