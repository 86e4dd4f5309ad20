/* a put function over a static buffer: wrong, the end falls behind the buffer */
extern int getchar(void);
static char out[32];
static int used;
static void put(int c)
{
  if (used < 32) {
    out[used++] = (char)c;
    out[used] = 0; /* here */
  }
}
int main(void)
{
  int c;
  while ((c = getchar()) != -1) put(c);
  return out[0];
}
