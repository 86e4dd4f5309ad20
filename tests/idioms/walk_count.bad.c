/* pointer with a count: wrong, one too many */
int main(void)
{
  char a[10];
  char *p = a;
  int n = 11;
  while (n-- > 0) *p++ = 0; /* here */
  return 0;
}
