/* stack with both checks: wrong, empty isn't looked for */
extern int getchar(void);
static int s[16];
static int sp;
static int push(int v)
{
  if (sp == 16) return 0;
  s[sp++] = v;
  return 1;
}
static int pop(void)
{
  return s[--sp]; /* here */
}
int main(void)
{
  int c;
  while ((c = getchar()) != -1) {
    if (c == '+') push(c);
    else pop();
  }
  return 0;
}
