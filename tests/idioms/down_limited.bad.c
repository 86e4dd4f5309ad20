/* a count from outside, limited, then counted down: wrong, limited too late */
extern int getchar(void);
int main(void)
{
  int a[10];
  int n = getchar();
  if (n > 11) n = 11;
  while (n > 0) a[--n] = 0; /* here */
  return 0;
}
