/*
 * C90 7.8. A list points to an object that holds whatever was passed behind the named parameters:
 * ./sparrow source writes it for each function that is defined with `...`, and its address for
 * __sparrow_rest there.
 */
#ifndef _SPARROW_STDARG_H
#define _SPARROW_STDARG_H

#define _NEED_va_list
#include <bits/types.h>

extern char *__sparrow_rest;
#define va_start(list, last) ((void)((list) = __sparrow_rest))
#define va_arg(list, type) (*(type *)(list))
#define va_end(list) ((void)0)

#ifndef _ANSI_SOURCE
/* POSIX.1-2001 */
#define va_copy(to, from) ((void)((to) = (from)))
#endif

#endif
