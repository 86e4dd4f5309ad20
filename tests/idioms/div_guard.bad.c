/* division behind != 0: wrong, the guard is for another number */
extern int getchar(void);
int main(void)
{
  int d = getchar();
  int r = 0;
  if (d != 1) r = 1000 / d; /* here */
  return r;
}
