/* a list over a static pool: wrong, a full pool isn't looked for */
struct node { int v; struct node *next; };
extern int getchar(void);
static struct node pool[20];
static int used;
static struct node *head;
static struct node *make(int v)
{
  struct node *n;
  if (used > 20) return 0;
  n = &pool[used++];
  n->v = v; /* here */
  n->next = head;
  return n;
}
int main(void)
{
  struct node *n;
  int s = 0;
  int c;
  while ((c = getchar()) != -1) {
    n = make(c);
    if (n != 0) head = n;
  }
  for (n = head; n != 0; n = n->next) s += n->v;
  return s;
}
