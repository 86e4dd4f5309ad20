/* Solaris: what stands in the buffer of a FILE. */
#ifndef _SPARROW_STDIO_EXT_H
#define _SPARROW_STDIO_EXT_H

#include <stdio.h>

extern size_t __fbufsize(FILE *);
extern int __flbf(FILE *);
extern size_t __fpending(FILE *);
extern void __fpurge(FILE *);
extern int __freadable(FILE *);
extern int __freading(FILE *);
extern int __fsetlocking(FILE *, int);
extern int __fwritable(FILE *);
extern int __fwriting(FILE *);

#define FSETLOCKING_QUERY 0
#define FSETLOCKING_INTERNAL 1
#define FSETLOCKING_BYCALLER 2

#endif
