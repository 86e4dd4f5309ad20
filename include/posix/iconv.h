/* POSIX.1-2001, iconv.h */
#ifndef _SPARROW_ICONV_H
#define _SPARROW_ICONV_H

#define _NEED_size_t
#include <bits/types.h>

typedef void *iconv_t;

extern size_t iconv(iconv_t, char **, size_t *, char **, size_t *);
extern int iconv_close(iconv_t);
extern iconv_t iconv_open(const char *, const char *);

#endif
