/* while (n--): wrong, starts one too high */
int main(void)
{
  int a[10];
  int n = 11;
  while (n--) a[n] = 0; /* here */
  return 0;
}
