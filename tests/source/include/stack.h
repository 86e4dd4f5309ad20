/* A stack of numbers. */
#ifndef STACK_H
#define STACK_H

#ifndef DEPTH
#define DEPTH 16
#endif

extern int depth;
extern int values[DEPTH];

extern void push(int value);
extern int pop(void);

/* The stack may be empty, and depth is at most DEPTH: see push. */
static int top(void)
{
    return values[depth - 1];
}

#endif
