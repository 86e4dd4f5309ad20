/* ring by a mask: wrong, the mask is the length */
extern int getchar(void);
static int b[16];
int main(void)
{
  unsigned head = 0;
  int c;
  while ((c = getchar()) != -1) b[head++ & 16] = c; /* here */
  return b[0];
}
