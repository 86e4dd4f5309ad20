/* unsigned countdown: wrong, an unsigned number is never below 0 */
int main(void)
{
  int a[10];
  unsigned i;
  for (i = 9; i >= 0; i--) a[i] = 0; /* here */
  return 0;
}
