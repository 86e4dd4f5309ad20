/* assigned and tested in one condition: wrong, one past is let in */
extern int getchar(void);
int main(void)
{
  int t[8];
  int n;
  while ((n = getchar()) > 0 && n <= 8) t[n] = 1; /* here */
  return 0;
}
