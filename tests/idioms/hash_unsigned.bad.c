/* unsigned hash by modulo: wrong, modulo is one too great */
extern int getchar(void);
static int t[61];
int main(void)
{
  unsigned h = 0;
  int c;
  while ((c = getchar()) != -1) h = h * 31 + c;
  t[h % 62]++; /* here */
  return 0;
}
