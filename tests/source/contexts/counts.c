/* A wrapper with static objects, which all its copies share. */
#include <stdio.h>
#include <stdlib.h>
#include <string.h>

struct pair { int left, right; };

static void *take(size_t size)
{
    static int calls;
    static size_t total = 1, *sum = &total;
    void *block = malloc(size);
    if (block == NULL) {
        static const char said[] = "no memory";
        puts(said);
        exit(1);
    }
    calls++;
    *sum += size;
    printf("%d %lu\n", calls, (unsigned long)total);
    return memset(block, calls, size);
}

int main(void)
{
    struct pair *pair = take(sizeof *pair);
    int *list = take(4 * sizeof *list);
    char *text = take(10);
    printf("%d %d %d\n", pair->right, list[3], text[9]);
    return 0;
}
