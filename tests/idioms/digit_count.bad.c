/* digits counted: wrong, one past is let in */
extern int getchar(void);
int main(void)
{
  int t[10];
  int c;
  int i;
  for (i = 0; i < 10; i++) t[i] = 0;
  while ((c = getchar()) != -1)
    if (c >= '0' && c <= ':') t[c - '0']++; /* here */
  return 0;
}
