/* month from 1 to 12: wrong, month 0 is let in */
extern int getchar(void);
static int days[12] = { 31, 28, 31, 30, 31, 30, 31, 31, 30, 31, 30, 31 };
static int of(int m)
{
  if (m < 0 || m > 12) return 0;
  return days[m - 1]; /* here */
}
int main(void)
{
  return of(getchar());
}
