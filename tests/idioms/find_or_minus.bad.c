/* index of a value or -1: wrong, -1 isn't looked for */
extern int getchar(void);
static int a[10], b[10];
static int find(int x)
{
  int i;
  for (i = 0; i < 10; i++)
    if (a[i] == x) return i;
  return -1;
}
int main(void)
{
  int k = find(getchar());
  b[k] = 1; /* here */
  return 0;
}
