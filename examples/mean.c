/* The mean of the numbers that are marked. */
struct sample {
  int value;
  int marked;
};

static struct sample samples[4] = { { 3, 1 }, { 5, 0 }, { 8, 1 }, { 1, 0 } };

static int mean(struct sample *first, int count)
{
  int k;
  int sum = 0;
  int marked = 0;
  for (k = 0; k < count; k++) {
    if (first[k].marked != 0) {
      sum = sum + first[k].value;
      marked = marked + 1;
    }
  }
  return sum / marked;
}

int main(void)
{
  return mean(samples, 4);
}
