/* post-increment into a buffer behind a bound: wrong, bound is one too great */
extern int getchar(void);
int main(void)
{
  char b[16];
  int n = 0;
  int c;
  while ((c = getchar()) != -1) {
    if (n <= 16) b[n++] = (char)c; /* here */
  }
  return 0;
}
