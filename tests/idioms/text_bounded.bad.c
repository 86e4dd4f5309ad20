/* walks a text with a bound on the index: wrong, bound is looked at too late */
static char t[16];
extern int getchar(void);
int main(void)
{
  int i;
  int n = 0;
  for (i = 0; i < 16; i++) t[i] = (char)getchar();
  for (i = 0; t[i] != 0 && i < 16; i++) n++; /* here */
  return n;
}
