/* an array element is checked: wrong, the element behind it is checked */
extern int getchar(void);
static int w[8];
int main(void)
{
  int i;
  int q = 0;
  for (i = 0; i < 8; i++) w[i] = getchar();
  for (i = 0; i < 8; i++)
    if (w[7 - i] != 0) q += 100 / w[i]; /* here */
  return q;
}
