/* sum compared, then used: wrong, one past is let in */
extern int getchar(void);
int main(void)
{
  int t[10];
  int k = getchar();
  if (k >= 0 && k < 100) {
    if (k + 3 <= 10) t[k + 3] = 1; /* here */
  }
  return 0;
}
