/* ring walked backwards: wrong, one too many is added */
extern int getchar(void);
static int b[10];
int main(void)
{
  int at = 0;
  int i;
  for (i = 0; i < 50; i++) {
    b[at] = getchar(); /* here */
    at--;
    if (at < 0) at += 11;
  }
  return b[0];
}
