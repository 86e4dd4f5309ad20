/* BSD: words that headers of BSD programs use, each of which stands for nothing. */
#ifndef _SPARROW_SYS_CDEFS_H
#define _SPARROW_SYS_CDEFS_H

#include <bits/types.h>

#define __P(parameters) parameters
#define __COPYRIGHT(text)
#define __FBSDID(text)
#define __RCSID(text)
#define __dead
#define __dead2
#define __printflike(format, first)
#define __unused
#define __used

#endif
