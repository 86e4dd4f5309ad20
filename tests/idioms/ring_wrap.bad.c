/* ring by a test: wrong, tests too late */
extern int getchar(void);
static int b[10];
static int head;
int main(void)
{
  int c;
  while ((c = getchar()) != -1) {
    b[head] = c; /* here */
    if (head++ == 10) head = 0;
  }
  return b[0];
}
