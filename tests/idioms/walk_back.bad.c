/* pointer downwards: wrong, one too far */
int main(void)
{
  int a[10];
  int *p = a + 10;
  while (p >= a) *--p = 0; /* here */
  return 0;
}
