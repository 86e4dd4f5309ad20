/* two elements a step: wrong, the second element falls behind */
static int a[9];
int main(void)
{
  int i;
  int s = 0;
  for (i = 0; i < 9; i += 2) s += a[i] * a[i + 1]; /* here */
  return s;
}
