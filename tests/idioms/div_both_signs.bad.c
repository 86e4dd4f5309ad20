/* less or greater than zero: wrong, less or equal */
extern int getchar(void);
int main(void)
{
  int d = getchar();
  if (d <= 0 || d > 0) return 100 / d; /* here */
  return 0;
}
