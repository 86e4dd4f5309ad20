/* value of a hexadecimal digit: wrong, g is let in */
extern int getchar(void);
static int t[16];
static int value(int c)
{
  if (c >= '0' && c <= '9') return c - '0';
  if (c >= 'a' && c <= 'g') return c - 'a' + 10;
  return -1;
}
int main(void)
{
  int v = value(getchar());
  if (v < 0) return 1;
  t[v]++; /* here */
  return 0;
}
