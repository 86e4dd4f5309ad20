/* a malloc'ed struct, checked: wrong, too few bytes */
extern void *malloc(unsigned long n);
struct point { int x; int y; };
int main(void)
{
  struct point *p = (struct point *)malloc(4);
  if (p == 0) return 1;
  p->x = 1; /* here */
  p->y = 2;
  return p->x + p->y;
}
