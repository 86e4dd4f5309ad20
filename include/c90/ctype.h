/* C90 7.3. The tests and mappings are functions, and no macros. */
#ifndef _SPARROW_CTYPE_H
#define _SPARROW_CTYPE_H

extern int isalnum(int);
extern int isalpha(int);
extern int iscntrl(int);
extern int isdigit(int);
extern int isgraph(int);
extern int islower(int);
extern int isprint(int);
extern int ispunct(int);
extern int isspace(int);
extern int isupper(int);
extern int isxdigit(int);
extern int tolower(int);
extern int toupper(int);

#ifndef _ANSI_SOURCE
/* POSIX.1-2001 */
extern int isascii(int);
extern int isblank(int);
extern int toascii(int);
#endif

#endif
