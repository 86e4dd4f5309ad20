/* for loop downwards: wrong, starts one too high */
int main(void)
{
  int a[10];
  int i;
  for (i = 10; i >= 0; i--) a[i] = i; /* here */
  return 0;
}
