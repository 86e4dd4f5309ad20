/* Wrappers of allocation, one over another, that other files call. */
#include <stdio.h>
#include <stdlib.h>
#include <string.h>

void *get_block(size_t size)
{
  void *block = malloc(size);
  if (block == NULL) {
    fprintf(stderr, "no memory for %lu bytes\n", (unsigned long)size);
    exit(2);
  }
  return block;
}

void *get_zeros(size_t count, size_t size)
{
  void *block = get_block(count * size);
  return memset(block, 0, count * size);
}

char *copy_text(const char *text)
{
  char *copy = get_block(strlen(text) + 1);
  return strcpy(copy, text);
}
