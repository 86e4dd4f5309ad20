/* Prints the lines of standard input, cut to 80 bytes. */
#include <stdio.h>
#define SIZE 80
static char line[SIZE];

/* Reads a line, and gives its length; -1 at the end of the input. */
static int read_line(void)
{
  int length = 0;
  int c = getchar();

  if (c == EOF)
    return -1;
  while (c != '\n' && c != EOF) {
    if (length < SIZE) {
      line[length] = (char)c;
      length = length + 1;
    }
    c = getchar();
  }
  line[length] = '\0';
  return length;
}

int main(void)
{
  while (read_line() >= 0)
    puts(line);
  return 0;
}
