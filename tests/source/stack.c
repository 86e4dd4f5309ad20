#include "stack.h"

int depth;
int values[DEPTH];

/* Nothing tests whether it is full, so depth may be DEPTH; in the plain mode it may be any int. */
void push(int value)
{
    values[depth] = value;
    depth++;
}

/* Where depth is at least 1, what is left is at least 0: in the plain mode it may be any such. */
int pop(void)
{
    if (depth <= 0)
        return 0;
    depth--;
    return values[depth];
}
