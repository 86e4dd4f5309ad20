/* BSD */
#ifndef _SPARROW_ERR_H
#define _SPARROW_ERR_H

#include <stdarg.h>

extern void err(int, const char *, ...);
extern void errx(int, const char *, ...);
extern void verr(int, const char *, va_list);
extern void verrx(int, const char *, va_list);
extern void warn(const char *, ...);
extern void warnx(const char *, ...);
extern void vwarn(const char *, va_list);
extern void vwarnx(const char *, va_list);

#endif
