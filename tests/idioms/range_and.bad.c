/* index between 0 and the length: wrong, negative isn't looked for */
extern int getchar(void);
int main(void)
{
  int t[10];
  int k = getchar();
  if (k < 10) t[k] = 1; /* here */
  return 0;
}
