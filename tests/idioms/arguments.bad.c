/* the words of the command line: wrong, reads past the end of the list */
extern int puts(const char *s);
int main(int argc, char **argv)
{
  int i;
  for (i = 1; i < argc; i++) puts(argv[i + 2]); /* here */
  return 0;
}
