/* a struct's member is checked: wrong, the other member is checked */
struct clock { int rate; int ticks; };
extern int getchar(void);
static struct clock c;
int main(void)
{
  c.rate = getchar();
  c.ticks = getchar();
  if (c.ticks != 0) return c.ticks / c.rate; /* here */
  return 0;
}
