/* remainder behind a bare condition: wrong, the guard is negated */
extern int getchar(void);
int main(void)
{
  int d = getchar();
  int r = 0;
  if (!d) r = 1000 % d; /* here */
  return r;
}
