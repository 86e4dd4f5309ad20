/* a char is cast before it indexes: wrong, no cast */
extern int getchar(void);
static int t[256];
static char b[8];
int main(void)
{
  int i;
  for (i = 0; i < 8; i++) b[i] = (char)getchar();
  for (i = 0; i < 8; i++) t[b[i]]++; /* here */
  return 0;
}
