/* three bits of a word: wrong, four bits */
extern int getchar(void);
static int t[8];
int main(void)
{
  int w = getchar();
  t[(w >> 3) & 15]++; /* here */
  return 0;
}
