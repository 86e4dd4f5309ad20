/* digits of a number from the end, bounded: wrong, bound lets one too many in */
extern int getchar(void);
int main(void)
{
  char b[9];
  int i = 9;
  unsigned n = (unsigned)getchar();
  do {
    b[--i] = (char)('0' + n % 10); /* here */
    n /= 10;
  } while (n > 0 && i >= 0);
  return b[i];
}
