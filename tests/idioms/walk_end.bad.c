/* pointer until it is the end: wrong, the end is one too far */
int main(void)
{
  int a[10];
  int *p = a;
  int *end = a + 11;
  while (p != end) *p++ = 0; /* here */
  return 0;
}
