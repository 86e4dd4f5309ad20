/* A till: each line of standard input names an item, and the bill is printed at the end. */
#include <stdio.h>
#include <stdlib.h>
#include <string.h>

struct item {
    const char *name;
    int price;
    int stock;
};

#define ITEMS ((int)(sizeof items / sizeof items[0]))

static struct item items[] = {
    { "bread", 250, 12 },
    { "butter", 320, 8 },
    { "cheese", 480, 5 },
    { "salt", 90, 30 },
    { "tea", 410, 16 }
};

static int by_price(const void *left, const void *right)
{
    const struct item *first = left;
    const struct item *second = right;

    return first->price - second->price;
}

/* The item of that name, or none. */
static struct item *find(const char *name)
{
    int k;

    for (k = 0; k < ITEMS; k++)
        if (strcmp(items[k].name, name) == 0)
            return &items[k];
    return NULL;
}

/* The price of the first items. Of ITEMS + 1 there are none. */
static int price_of_first(int count)
{
    int k;
    int sum = 0;

    for (k = 0; k <= count; k++)
        sum += items[k].price;
    return sum;
}

/* Cuts a line at its end, where strchr points. */
static void cut(char *line)
{
    char *end = strchr(line, '\n');

    if (end != NULL)
        *end = '\0';
}

/* One is taken, though find may give none. */
static int take(const char *name)
{
    struct item *found = find(name);

    found->stock--;
    return 1;
}

static int take_if_there(const char *name)
{
    struct item *found = find(name);

    if (found == NULL || found->stock <= 0) {
        fprintf(stderr, "no %s\n", name);
        return 0;
    }
    found->stock--;
    return found->price;
}

int main(void)
{
    static char line[80];
    int bill = 0;
    int taken = 0;

    qsort(items, ITEMS, sizeof items[0], by_price);
    while (fgets(line, sizeof line, stdin) != NULL) {
        cut(line);
        if (line[0] == '+')
            taken += take(&line[1]);
        else
            bill += take_if_there(line);
    }
    printf("all cost %d\n", price_of_first(ITEMS));
    printf("bill %d, %d taken\n", bill, taken);
    return EXIT_SUCCESS;
}
