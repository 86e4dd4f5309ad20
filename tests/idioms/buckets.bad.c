/* hundred values in ten buckets: wrong, 100 is let in */
extern int getchar(void);
static int n[10];
int main(void)
{
  int v = getchar();
  if (v >= 0 && v <= 100) n[v / 10]++; /* here */
  return 0;
}
