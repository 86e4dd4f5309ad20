/* fills by a pointer up to a limit: wrong, no room for the end */
extern int getchar(void);
static char b[32];
int main(void)
{
  char *p = b;
  char *limit = b + sizeof b;
  int c;
  while ((c = getchar()) != -1) {
    if (p < limit) *p++ = (char)c;
  }
  *p = 0; /* here */
  return b[0];
}
