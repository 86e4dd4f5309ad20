/* counts bytes by an unsigned char: wrong, table is one too short */
extern int getchar(void);
static int t[255];
int main(void)
{
  int c;
  unsigned char u;
  while ((c = getchar()) != -1) {
    u = (unsigned char)c;
    t[u]++; /* here */
  }
  return 0;
}
