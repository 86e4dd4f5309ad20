/* one comparison as unsigned: wrong, one past is let in */
extern int getchar(void);
int main(void)
{
  int t[10];
  int k = getchar();
  if ((unsigned)k <= 10) t[k] = 1; /* here */
  return 0;
}
