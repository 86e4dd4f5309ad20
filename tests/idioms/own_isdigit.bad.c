/* a test function guards the index: wrong, one past is let in */
extern int getchar(void);
static int t[10];
static int digit(int c)
{
  return c >= '0' && c <= ':';
}
int main(void)
{
  int c = getchar();
  if (digit(c)) t[c - '0']++; /* here */
  return 0;
}
