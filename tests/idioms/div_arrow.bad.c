/* a member behind a pointer is checked: wrong, the other member is checked */
struct clock { int rate; int ticks; };
extern int getchar(void);
static struct clock one, two;
static int seconds(struct clock *c)
{
  if (c->ticks == 0) return 0;
  return c->ticks / c->rate; /* here */
}
int main(void)
{
  one.rate = getchar();
  one.ticks = getchar();
  two.rate = getchar();
  return seconds(&one) + seconds(&two);
}
