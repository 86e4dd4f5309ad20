/* Two callers of xmalloc: a block of a node, and one of 10 bytes, past whose end text[10] is. */
#include <stdlib.h>
#include <string.h>
struct node { struct node *next; int value; };
static void *xmalloc(size_t size)
{
  void *p = malloc(size);
  if (p == NULL)
    exit(1);
  return p;
}
static struct node *push(struct node *rest, int value)
{
  struct node *made = xmalloc(sizeof *made);
  made->next = rest;
  made->value = value;
  return made;
}
int main(void)
{
  struct node *list = NULL;
  char *text = xmalloc(10);
  int k;
  for (k = 0; k < 3; k++)
    list = push(list, k);
  while (list != NULL && list->value > 0)
    list = list->next;
  text[10] = '\0';
  return 0;
}
