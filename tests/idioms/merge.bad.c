/* merges two sorted arrays: wrong, the result is too short */
static int a[8], b[8], out[15];
int main(void)
{
  int i = 0;
  int j = 0;
  int k = 0;
  while (i < 8 && j < 8) {
    if (a[i] <= b[j]) out[k++] = a[i++];
    else out[k++] = b[j++];
  }
  while (i < 8) out[k++] = a[i++];
  while (j < 8) out[k++] = b[j++]; /* here */
  return out[0];
}
