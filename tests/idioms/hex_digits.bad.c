/* digits of a number from a text: wrong, the mask is too wide */
extern int getchar(void);
static const char digits[] = "0123456789abcdef";
int main(void)
{
  unsigned v = (unsigned)getchar();
  char b[8];
  int i;
  for (i = 7; i >= 0; i--) {
    b[i] = digits[v & 31]; /* here */
    v >>= 4;
  }
  return b[0];
}
