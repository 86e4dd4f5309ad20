/* null is looked for: wrong, only null is used */
extern int getchar(void);
static int x;
static int *find(int c)
{
  return c == 'x' ? &x : 0;
}
int main(void)
{
  int *p = find(getchar());
  if (p) return 1;
  return *p; /* here */
}
