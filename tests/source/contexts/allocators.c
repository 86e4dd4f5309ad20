/* Blocks by an allocator that a stream names, as libraries for compression do. */
#include <stdio.h>
#include <stdlib.h>

struct stream {
  void *(*get)(void *mine, unsigned count, unsigned size);
  void *mine;
};
struct point { int x, y; };

#define GET(stream, count, size) (*((stream)->get))((stream)->mine, (count), (size))

static void *get_block(void *mine, unsigned count, unsigned size)
{
  static int blocks;
  void *made = malloc(count * size);
  if (made == NULL || (mine != NULL && blocks > 99))
    exit(1);
  blocks++;
  return made;
}

static int start(struct stream *stream)
{
  if (stream->get == NULL) {
    stream->get = get_block;
    stream->mine = NULL;
  }
  return stream->mine == NULL;
}

static int use(struct stream *stream)
{
  int k, sum = 0;
  /* A check of what a pointer leads to tells nothing, so what is called may still be null. */
  struct point *place = (struct point *) GET(stream, 1, sizeof(struct point));
  int *row = (int *) GET(stream, 3, sizeof(int));
  place->x = 1;
  place->y = 2;
  for (k = 0; k < 3; k++)
    row[k] = k + place->y;
  /* The row ends before it. */
  row[3] = 0;
  sum = row[0] + row[2] + place->x;
  printf("%d\n", sum);
  return sum;
}

int main(void)
{
  struct stream stream;
  stream.get = NULL;
  stream.mine = NULL;
  if (!start(&stream))
    return 2;
  return use(&stream) != 7;
}
