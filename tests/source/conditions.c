/* Conditions that change what they test, in all forms; what they do is printed. */
int printf(const char *, ...);

static int calls;
static int next(int n) { calls++; return n; }
static void show(const char *what, long a, long b) { printf("%s %ld %ld\n", what, a, b); }

static void assignments(void)
{
  int c, d = 0, k = 3;
  char narrow;
  unsigned char byte;
  int *p, x = 5;

  while ((c = next(k--)) != 0)
    d += c;
  show("while", d, c);
  if ((narrow = 300) == 300)
    show("narrow", narrow, 1);
  if ((byte = -1) < 0)
    show("byte", byte, 1);
  if (!(p = &x))
    show("null", 0, 0);
  else if ((p = 0) == 0 || next(7))
    show("or", p == 0, calls);
  for (d = 0; (c = next(4 - d)) > 1 && (k = c) != 2; d++)
    show("for", c, k);
  if (c = next(0))
    show("bare", c, 0);
  if ((c = d = 2) == 2)
    show("chain", c, d);
  if ((c += 3) > 4 ? (d -= 2) == 0 : 0)
    show("compound", c, d);
  if (next(1), (c = 9) > 8)
    show("comma", c, 0);
}

static void steps(void)
{
  int n, m = 2, s = 0;
  unsigned u;
  const char *t = "abc";
  char narrow = -128;
  struct { int c; } r;

  n = 4;
  while (n-- > 0)
    s += n;
  show("down", n, s);
  n = 4;
  while (n--) {
    if (n == 2)
      continue;
    if (n == 1)
      break;
    s += n;
  }
  show("break", n, s);
  for (u = 3; u-- > 0;)
    s += u;
  show("unsigned", u == -1u, s);
  for (n = 0; s > 0 && n++ < m; s--)
    if (n == 2)
      continue;
  show("up", n, s);
  n = 3;
  while (n-- > 1 && next(n))
    s++;
  show("first", n, s);
  n = 3;
  while (next(n) && n-- > 1)
    if (n == 1)
      break;
  show("last", n, s);
  do
    s++;
  while (--m >= 0);
  show("do", m, s);
  m = 3;
  do
    if (m == 2)
      continue;
  while (m-- > 0);
  show("do continue", m, s);
  if (n-- > 0)
    show("taken", n, s);
  if (n++ == 5)
    show("never", n, s);
  else
    show("else", n, s);
  if (s)
    if (n-- > 100)
      show("inner", n, s);
    else
      show("its else", n, s);
  if (s < 0)
    show("outer", 0, 0);
  else if (++n != 0 && !(--n < 0))
    show("prefix", n, s);
  while (*t++)
    s++;
  show("pointer", *(t - 2), s);
  while (narrow-- == -128)
    s++;
  show("narrow", narrow, s);
  n = 2;
  while (n --> 0) while (m ++< 2) show("nested", n, m);
  show("end", n, m);
  s = n-- > -5 ? n : 0;
  show("choice", n, s);
  while (1 < (n++)) ;
  show("other side", n, calls);
  if (n++ > n)
    show("itself", n, 0);
  r.c = 3;
  while (r.c-- > m)
    s++;
  show("member", r.c, s);
  if ((r.c = next(4)) != 3 && --r.c == 3)
    show("member and step", r.c, s);
  n = 0;
  while (n++ < 3) switch (n) { case 1: continue; case 2: break; default: show("switch", n, 0); }
  show("behind", n, 0);
}

int main(void)
{
  assignments();
  steps();
  return 0;
}
