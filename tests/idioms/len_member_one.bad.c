/* the same with one buffer: wrong, bound is one too great */
struct buf { int len; char data[32]; };
extern int getchar(void);
static struct buf a;
static void add(struct buf *p, int c)
{
  if (p->len <= 32) {
    p->data[p->len] = (char)c; /* here */
    p->len++;
  }
}
int main(void)
{
  int c;
  while ((c = getchar()) != -1) add(&a, c);
  return 0;
}
