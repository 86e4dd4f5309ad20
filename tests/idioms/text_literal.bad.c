/* walks a literal to its end: wrong, starts behind the end */
static int length(const char *s)
{
  int n = 0;
  while (*s) { /* here */
    s++;
    n++;
  }
  return n;
}
int main(void)
{
  return length(&"a text"[7]);
}
