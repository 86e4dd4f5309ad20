/* length against sizeof: wrong, 0 is let in */
extern int getchar(void);
int main(void)
{
  char b[16];
  int n = getchar();
  if (n >= 0 && n <= sizeof b) b[n - 1] = 0; /* here */
  return 0;
}
