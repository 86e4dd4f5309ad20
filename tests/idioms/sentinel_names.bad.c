/* a table that ends with 0: wrong, the end is missing */
static const char *names[] = { "red", "green", "blue" };
int main(void)
{
  int i;
  int n = 0;
  for (i = 0; names[i] != 0; i++) n += names[i][0]; /* here */
  return n;
}
