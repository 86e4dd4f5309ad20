/* matrix product: wrong, a bound of the other matrix */
static int a[3][4], b[4][5], c[3][5];
int main(void)
{
  int i, j, k, s;
  for (i = 0; i < 3; i++)
    for (j = 0; j < 5; j++) {
      s = 0;
      for (k = 0; k < 5; k++) s += a[i][k] * b[k][j]; /* here */
      c[i][j] = s;
    }
  return c[0][0];
}
