/* Counts the words of standard input by their length. */
#include <stdio.h>
#include <stdlib.h>
#include <string.h>

static int count[20];

int main(void)
{
  char line[80];
  char *word;
  int most = 0;
  int c;

  if ((c = getchar()) != EOF)
    most = c;
  while (fgets(line, 81, stdin) != NULL)
    for (word = strtok(line, " \n"); word != NULL; word = strtok(NULL, " \n"))
      count[strlen(word)]++;
  printf("%d %d\n", count[1], most);
  return 0;
}
