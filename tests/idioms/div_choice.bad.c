/* division in a conditional expression: wrong, arms swapped */
extern int getchar(void);
static int average(int total, int n)
{
  return n ? 0 : total / n; /* here */
}
int main(void)
{
  return average(getchar(), getchar());
}
