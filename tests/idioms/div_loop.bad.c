/* divides while the divisor isn't zero: wrong, reads before it divides */
extern int getchar(void);
int main(void)
{
  int n = getchar();
  int s = 0;
  while (n != 0) {
    n = getchar();
    s += 100 / n; /* here */
  }
  return s;
}
