/* Days before each month of a year. */
static int days[12] = { 31, 28, 31, 30, 31, 30, 31, 31, 30, 31, 30, 31 };
static int before[12];

static void add_up(void)
{
  int month;
  before[0] = 0;
  for (month = 0; month < 12; month++)
    before[month + 1] = before[month] + days[month];
}

int main(void)
{
  add_up();
  return before[2];
}
