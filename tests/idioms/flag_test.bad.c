/* a test kept in a variable: wrong, one past is let in */
extern int getchar(void);
int main(void)
{
  int t[10];
  int k = getchar();
  int ok = k >= 0 && k <= 10;
  if (ok) t[k] = 1; /* here */
  return 0;
}
