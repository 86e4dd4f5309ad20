/* POSIX.1-2001, nl_types.h */
#ifndef _SPARROW_NL_TYPES_H
#define _SPARROW_NL_TYPES_H

#define _NEED_nl_item
#include <bits/types.h>

typedef void *nl_catd;

#define NL_SETD 1
#define NL_CAT_LOCALE 1

extern int catclose(nl_catd);
extern char *catgets(nl_catd, int, int, const char *);
extern nl_catd catopen(const char *, int);

#endif
