/* search with break, then the end tested: wrong, the end isn't tested */
extern int getchar(void);
static int a[10], b[10];
int main(void)
{
  int i;
  int x = getchar();
  for (i = 0; i < 10; i++)
    if (a[i] == x) break;
  b[i] = 1; /* here */
  return 0;
}
