/* POSIX.1-2001, libgen.h */
#ifndef _SPARROW_LIBGEN_H
#define _SPARROW_LIBGEN_H

extern char *basename(char *);
extern char *dirname(char *);

#endif
