/* both ends tested on the assigned value: wrong, -1 is let in */
extern int getchar(void);
int main(void)
{
  int t[8];
  int n;
  if ((n = getchar()) >= -1) {
    if (n < 8) t[n] = 1; /* here */
  }
  return 0;
}
