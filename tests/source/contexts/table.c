/* A table of words with how often each was added; it grows. */
#include <stdio.h>
#include <stdlib.h>
#include <string.h>

extern void *get_block(size_t size);
extern void *get_zeros(size_t count, size_t size);
extern char *copy_text(const char *text);

typedef struct { char *word; int count; } entry;

static entry *entries;
static int length, room;

static int clamp(int value, int most) { return value > most ? most : value; }

static void grow(void)
{
  int k, wanted = clamp(2 * room + 1, 100);
  entry *larger = get_zeros(wanted, sizeof *larger);
  for (k = 0; k < length; k++)
    larger[k] = entries[k];
  free(entries);
  entries = larger;
  room = wanted;
}

static void add(const char *word)
{
  int k;
  for (k = 0; k < length; k++)
    if (strcmp(entries[k].word, word) == 0)
      break;
  if (k == length) {
    if (length == room)
      grow();
    entries[length].word = copy_text(word);
    length++;
  }
  entries[k].count = clamp(entries[k].count + 1, 2);
}

int main(void)
{
  int *order = (int *)get_zeros(3, sizeof(int));
  entry *first = get_block(sizeof(entry));
  char *name = copy_text("table");
  int k;
  add("one"); add("two"); add("one"); add("three"); add("one");
  first->word = name;
  first->count = clamp(7, 5);
  for (k = 0; k < 3; k++)
    order[k] = clamp(k + 1, 2);
  printf("%s %d\n", first->word, first->count);
  for (k = 0; k < length; k++)
    printf("%s %d %d\n", entries[k].word, entries[k].count, order[k]);
  return 0;
}
