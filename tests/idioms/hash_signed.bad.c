/* signed hash put right: wrong, not put right */
extern int getchar(void);
static int t[61];
int main(void)
{
  int h = getchar();
  h = h % 61;
  t[h]++; /* here */
  return 0;
}
