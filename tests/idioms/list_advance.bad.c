/* advances in the condition: wrong, reads ahead of the test */
struct node { int v; struct node *next; };
static struct node a, b;
int main(void)
{
  struct node *p = &a;
  int s = 0;
  a.next = &b;
  do s += (p = p->next)->v; while (p->v == 0); /* here */
  return s;
}
