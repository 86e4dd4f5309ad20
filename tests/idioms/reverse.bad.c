/* reverses in place: wrong, starts at the length */
extern int getchar(void);
static char b[32];
int main(void)
{
  int i, j, n;
  char t;
  n = 0;
  while (n < 32) b[n++] = (char)getchar();
  for (i = 0, j = n; i < j; i++, j--) {
    t = b[i];
    b[i] = b[j]; /* here */
    b[j] = t;
  }
  return b[0];
}
