/* a count that comes with the array: wrong, a count too great */
static int a[10], b[20];
static int sum(const int *v, int n)
{
  int i;
  int s = 0;
  for (i = 0; i < n; i++) s += v[i]; /* here */
  return s;
}
int main(void)
{
  return sum(a, 10) + sum(b, 21);
}
