/* letters turned by 13 places: wrong, capitals are let in */
extern int getchar(void);
static char rot[26];
int main(void)
{
  int i;
  int c = getchar();
  for (i = 0; i < 26; i++) rot[i] = (char)('a' + (i + 13) % 26);
  if (c >= 'A' && c <= 'z') return rot[c - 'a']; /* here */
  return c;
}
