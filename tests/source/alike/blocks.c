/* Blocks in expressions, names that hide types, constants of a function, flexible members. */
int printf(const char *, ...);
typedef long word;
struct text { long length; char kind; char data[]; };
static int calls;

#define GREATER(a, b) ({ int left = (a), right = (b); calls++; left > right ? left : right; })
#define BARRIER() ({ __asm__ __volatile__("" : : : "memory"); })

static int step(int word)
{
    return ({ BARRIER(); if (word > 3) calls += word; else { calls--; word = -word; } word + 1; });
}

int main(void)
{
    typedef enum { RED = 2, GREEN, BLUE = GREEN * 3 } colour;
    colour c = BLUE;
    int list[3] = { 4, GREATER(step(5), 2), GREATER(1, GREATER(step(1), step(2))) };
    for (int word = 0; word < 3; word++)
        printf("%d ", list[word]);
    {
        int colour = c;
        colour += RED;
        printf("%d ", colour);
    }
    printf("%d %lu %d\n", calls, (unsigned long)sizeof(struct text), (int)sizeof(word));
    return 0;
}
