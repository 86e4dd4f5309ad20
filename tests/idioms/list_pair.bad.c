/* looks one ahead in a list: wrong, the last has none ahead */
struct node { int v; struct node *next; };
static struct node a, b, c;
int main(void)
{
  struct node *p;
  int s = 0;
  a.next = &b;
  b.next = &c;
  for (p = &a; p != 0; p = p->next)
    if (p->next->v > p->v) s++; /* here */
  return s;
}
