/* n elements from malloc: wrong, one too many */
extern void *malloc(unsigned long n);
extern int getchar(void);
int main(void)
{
  int n = getchar();
  int *a;
  int i;
  if (n < 1 || n > 100) return 1;
  a = (int *)malloc(n * sizeof(int));
  if (a == 0) return 1;
  for (i = 0; i <= n; i++) a[i] = i; /* here */
  return a[0];
}
