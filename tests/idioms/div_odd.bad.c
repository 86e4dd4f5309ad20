/* an odd number divides: wrong, an even number divides */
extern int getchar(void);
int main(void)
{
  int n = getchar();
  n &= ~1;
  return 100 / n; /* here */
}
