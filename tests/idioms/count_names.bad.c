/* a table by its number of elements: wrong, bytes for elements */
static const char *names[] = { "red", "green", "blue" };
int main(void)
{
  unsigned long i;
  int n = 0;
  for (i = 0; i < sizeof names; i++) n += names[i][0]; /* here */
  return n;
}
