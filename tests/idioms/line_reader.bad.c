/* reads a line with room for its end: wrong, no room for the end */
extern int getchar(void);
int main(void)
{
  char b[64];
  int n = 0;
  int c;
  while ((c = getchar()) != -1 && c != '\n') {
    if (n < (int)sizeof b) b[n++] = (char)c;
  }
  b[n] = 0; /* here */
  return b[0];
}
