/* length by a difference of pointers: wrong, one too far */
extern int getchar(void);
static char b[16];
int main(void)
{
  char *p = b;
  int n;
  while (p < b + 16) *p++ = (char)getchar();
  n = (int)(p - b);
  b[n] = 0; /* here */
  return n;
}
