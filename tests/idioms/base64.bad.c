/* six bits by shifts: wrong, a mask is too wide */
extern int getchar(void);
static const char t[65] = "ABCDEFGHIJKLMNOPQRSTUVWXYZabcdefghijklmnopqrstuvwxyz0123456789+/";
int main(void)
{
  unsigned char x = (unsigned char)getchar();
  unsigned char y = (unsigned char)getchar();
  int s = t[x >> 2];
  s += t[(x & 3) << 4 | y >> 4];
  s += t[(y & 31) << 2]; /* here */
  return s;
}
