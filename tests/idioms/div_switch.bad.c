/* case 0 is handled apart: wrong, another case is handled */
extern int getchar(void);
int main(void)
{
  int d = getchar();
  switch (d) {
  case 2: return -1;
  default: return 100 / d; /* here */
  }
  return 0;
}
