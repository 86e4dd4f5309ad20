/* out of range leaves first: wrong, one past is let in */
extern int getchar(void);
static int t[10];
static int get(int k)
{
  if (k < 0 || k > 10) return -1;
  return t[k]; /* here */
}
int main(void)
{
  return get(getchar());
}
