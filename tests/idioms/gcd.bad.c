/* Euclid's algorithm: wrong, tests behind the first step */
extern int getchar(void);
static int gcd(int a, int b)
{
  int t;
  do {
    t = a % b; /* here */
    a = b;
    b = t;
  } while (b != 0);
  return a;
}
int main(void)
{
  return gcd(getchar(), getchar());
}
