/* clamped at both ends: wrong, clamped one too high */
extern int getchar(void);
int main(void)
{
  int t[10];
  int v = getchar();
  if (v < 0) v = 0;
  if (v > 10) v = 10;
  t[v] = 1; /* here */
  return 0;
}
