/* until the index is the length: wrong, the length is one too great */
int main(void)
{
  int a[10];
  int i;
  for (i = 0; i != 11; i++) a[i] = 0; /* here */
  return 0;
}
