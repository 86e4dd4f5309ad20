/* counts what getchar gave, EOF left out: wrong, bytes past 127 aren't looked for */
static int t[128];
extern int getchar(void);
int main(void)
{
  int c;
  while ((c = getchar()) != -1) {
    if (c < 0) continue;
    t[c]++; /* here */
  }
  return 0;
}
