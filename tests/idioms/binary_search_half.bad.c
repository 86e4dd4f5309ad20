/* binary search over a half-open range: wrong, the end is too high */
extern int getchar(void);
static int a[100];
int main(void)
{
  int x = getchar();
  int lo = 0;
  int hi = 100;
  int mid;
  while (lo <= hi) {
    mid = (lo + hi) / 2;
    if (a[mid] < x) lo = mid + 1; /* here */
    else hi = mid - 1;
  }
  return lo;
}
