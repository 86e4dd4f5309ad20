/* share of a total that is more than 0: wrong, 0 passes */
extern int getchar(void);
int main(void)
{
  int part = getchar();
  int total = part + getchar();
  if (total < 0) return 0;
  return (part & 127) * 100 / total; /* here */
}
