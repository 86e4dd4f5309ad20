/* POSIX.1-2001, strings.h */
#ifndef _SPARROW_STRINGS_H
#define _SPARROW_STRINGS_H

#define _NEED_size_t
#include <bits/types.h>

extern int bcmp(const void *, const void *, size_t);
extern void bcopy(const void *, void *, size_t);
extern void bzero(void *, size_t);
extern int ffs(int);
extern char *index(const char *, int);
extern char *rindex(const char *, int);
extern int strcasecmp(const char *, const char *);
extern int strncasecmp(const char *, const char *, size_t);

#endif
