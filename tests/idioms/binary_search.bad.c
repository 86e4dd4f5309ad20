/* binary search: wrong, the end is one too high */
extern int getchar(void);
static int a[100];
static int find(int x)
{
  int lo = 0;
  int hi = 100;
  int mid;
  while (lo <= hi) {
    mid = lo + (hi - lo) / 2;
    if (a[mid] == x) return mid; /* here */
    if (a[mid] < x) lo = mid + 1;
    else hi = mid - 1;
  }
  return -1;
}
int main(void)
{
  return find(getchar());
}
