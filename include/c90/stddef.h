/* C90 7.1.6 */
#ifndef _SPARROW_STDDEF_H
#define _SPARROW_STDDEF_H

#define _NEED_NULL
#define _NEED_size_t
#define _NEED_wchar_t
#include <bits/types.h>

typedef long ptrdiff_t;
#ifndef _ANSI_SOURCE
/* C11 7.19 */
typedef struct {
    long _long;
    long double _double;
} max_align_t;
#endif

/*
 * An offset is some number below the size. Nothing accepted tells which without the address of a
 * member that is in no object. So an offset can't stand where a constant must.
 */
extern size_t __offset(size_t);
#define offsetof(type, member) (__offset(sizeof((type *)0)->member) % sizeof(type))

#endif
