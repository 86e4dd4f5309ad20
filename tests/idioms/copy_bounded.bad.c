/* copies a text with room for its end: wrong, no room for the end */
extern int getchar(void);
static void copy(char *to, const char *from, int size)
{
  int i;
  for (i = 0; i < size && from[i] != 0; i++) to[i] = from[i];
  to[i] = 0; /* here */
}
int main(void)
{
  char b[8];
  copy(b, "abcdefghijk", 8);
  return b[0];
}
