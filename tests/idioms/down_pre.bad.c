/* countdown by a pre-decrement in the condition: wrong, one round too many */
int main(void)
{
  int a[10];
  int n = 10;
  while (--n >= -1) a[n] = 0; /* here */
  return 0;
}
