/* zero is replaced by one: wrong, one is replaced by zero */
extern int getchar(void);
int main(void)
{
  int d = getchar();
  d = d == 1 ? 0 : d;
  return 100 / d; /* here */
}
