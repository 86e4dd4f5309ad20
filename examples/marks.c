/* Counts marks, and keeps the last of each. Nothing tests whether there is such a mark. */
static int count[6];
static int best[5];

static int note(int mark)
{
  count[mark]++;
  best[mark] = mark;
  return count[mark];
}

int main(int argc, char **argv)
{
  return note(argc);
}
