/* pointer up to an end: wrong, one too far */
int main(void)
{
  int a[10];
  int *p;
  for (p = a; p <= a + 10; p++) *p = 0; /* here */
  return 0;
}
