/* a state machine by a table: wrong, a state past the table */
enum state { START, WORD, NUMBER, END };
extern int getchar(void);
static int next[4][3] = { { WORD, NUMBER, END }, { WORD, 4, END }, { END, NUMBER, END }, { END, END, END } };
static int class_of(int c)
{
  if (c >= 'a' && c <= 'z') return 0;
  if (c >= '0' && c <= '9') return 1;
  return 2;
}
int main(void)
{
  int s = START;
  while (s != END) s = next[s][class_of(getchar())]; /* here */
  return s;
}
