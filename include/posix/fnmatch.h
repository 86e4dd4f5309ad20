/* POSIX.1-2001, fnmatch.h */
#ifndef _SPARROW_FNMATCH_H
#define _SPARROW_FNMATCH_H

#define FNM_PATHNAME 1
#define FNM_NOESCAPE 2
#define FNM_PERIOD 4
#define FNM_NOMATCH 1

#ifdef _GNU_SOURCE
#define FNM_LEADING_DIR 8
#define FNM_CASEFOLD 16
#endif

extern int fnmatch(const char *, const char *, int);

#endif
