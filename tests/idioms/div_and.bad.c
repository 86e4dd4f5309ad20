/* division behind &&: wrong, || where && is meant */
extern int getchar(void);
int main(void)
{
  int n = getchar();
  int total = getchar();
  if (n || total / n > 2) return 1; /* here */
  return 0;
}
