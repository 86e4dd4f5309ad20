/* the same with size_t: wrong, no room for the end */
extern int getchar(void);
int main(void)
{
  char b[64];
  unsigned long n = 0;
  int c;
  while (n < sizeof b && (c = getchar()) != -1) b[n++] = (char)c;
  b[n] = 0; /* here */
  return 0;
}
