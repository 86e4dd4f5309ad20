/* cases are the range: wrong, a case too many */
extern int getchar(void);
int main(void)
{
  int t[3];
  int c = getchar();
  switch (c) {
  case 0:
  case 1:
  case 2:
  case 3:
    t[c] = 1; /* here */
    break;
  default:
    break;
  }
  return 0;
}
