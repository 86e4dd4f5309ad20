/* the lesser of two by a conditional expression: wrong, the greater of two */
extern int getchar(void);
int main(void)
{
  char b[16];
  int len = getchar();
  int n = len > 16 ? len : 16;
  int i;
  for (i = 0; i < n; i++) b[i] = 0; /* here */
  return 0;
}
