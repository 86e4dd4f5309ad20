/* POSIX.1-2001, ucontext.h */
#ifndef _SPARROW_UCONTEXT_H
#define _SPARROW_UCONTEXT_H

#include <signal.h>

typedef struct {
    long __registers[23];
    void *__floating;
    unsigned long __rest[8];
} mcontext_t;

typedef struct ucontext_t {
    unsigned long __flags;
    struct ucontext_t *uc_link;
    stack_t uc_stack;
    mcontext_t uc_mcontext;
    sigset_t uc_sigmask;
    unsigned char __state[512];
    unsigned long __shadow[4];
} ucontext_t;

extern int getcontext(ucontext_t *);
extern int setcontext(const ucontext_t *);
extern int swapcontext(ucontext_t *, const ucontext_t *);
extern void makecontext(ucontext_t *, void (*)(void), int, ...);

#endif
