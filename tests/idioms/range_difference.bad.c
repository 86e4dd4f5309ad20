/* difference in range by one unsigned comparison: wrong, one past is let in */
extern int getchar(void);
int main(void)
{
  int t[10];
  unsigned char c = (unsigned char)getchar();
  if ((unsigned)(c - '0') <= 10) t[c - '0'] = 1; /* here */
  return 0;
}
