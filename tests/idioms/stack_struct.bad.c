/* stack in a struct: wrong, pop at the bottom */
struct stack { int top; int v[16]; };
extern int getchar(void);
static struct stack s;
static void push(struct stack *p, int v)
{
  if (p->top < 16) p->v[p->top++] = v;
}
static int pop(struct stack *p)
{
  if (p->top >= 0) return p->v[--p->top]; /* here */
  return 0;
}
int main(void)
{
  int c;
  while ((c = getchar()) != -1) {
    if (c == '+') push(&s, c);
    else pop(&s);
  }
  return 0;
}
