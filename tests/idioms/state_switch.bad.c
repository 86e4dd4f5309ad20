/* a state machine by switch with a count per state: wrong, a state more than counts */
enum state { OUT, IN, LAST, DONE };
extern int getchar(void);
static int seen[3];
int main(void)
{
  enum state s = OUT;
  int c;
  while (s != DONE) {
    c = getchar();
    switch (s) {
    case OUT: s = c == '(' ? IN : OUT; break;
    case IN: s = c == ')' ? DONE : IN; break;
    default: break;
    }
    seen[s]++; /* here */
  }
  return seen[0];
}
