/*
 * POSIX.1-2001, stdbool.h (C99 7.16). C90 has no type _Bool, so bool is int here: a value other
 * than 0 and 1 stays as it is, and a bool has 4 bytes.
 */
#ifndef _SPARROW_STDBOOL_H
#define _SPARROW_STDBOOL_H

#define bool int
#define true 1
#define false 0
#define __bool_true_false_are_defined 1

#endif
