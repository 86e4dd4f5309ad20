/* ring by modulo: wrong, modulo is one too great */
extern int getchar(void);
static int b[10];
int main(void)
{
  int head = 0;
  int c;
  while ((c = getchar()) != -1) {
    b[head] = c; /* here */
    head = (head + 1) % 11;
  }
  return b[0];
}
