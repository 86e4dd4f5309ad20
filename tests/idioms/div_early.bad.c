/* zero leaves the function first: wrong, the wrong parameter is tested */
extern int getchar(void);
static int ratio(int a, int b)
{
  if (a == 0) return -1;
  return a / b; /* here */
}
int main(void)
{
  return ratio(getchar(), getchar());
}
