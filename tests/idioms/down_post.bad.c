/* countdown by a post-decrement in the condition: wrong, one round too many */
int main(void)
{
  int a[10];
  int n = 10;
  while (n-- >= 0) a[n] = 0; /* here */
  return 0;
}
