/* mean of what was read, with a count check: wrong, count isn't checked */
extern int getchar(void);
int main(void)
{
  int c;
  long sum = 0;
  int n = 0;
  while ((c = getchar()) != -1) {
    sum += c;
    n++;
  }
  return (int)(sum / n); /* here */
  return 0;
}
