/* a buffer with a length member: wrong, bound is one too great */
struct buf { int len; char data[32]; };
extern int getchar(void);
static struct buf a, b;
static void add(struct buf *p, int c)
{
  if (p->len <= 32) p->data[p->len++] = (char)c; /* here */
}
int main(void)
{
  int c;
  while ((c = getchar()) != -1) {
    add(&a, c);
    if (c == '\n') add(&b, c);
  }
  return 0;
}
