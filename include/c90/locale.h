/* C90 7.4 */
#ifndef _SPARROW_LOCALE_H
#define _SPARROW_LOCALE_H

#define _NEED_NULL
#include <bits/types.h>

#define LC_CTYPE 0
#define LC_NUMERIC 1
#define LC_TIME 2
#define LC_COLLATE 3
#define LC_MONETARY 4
#define LC_ALL 6

struct lconv {
    char *decimal_point;
    char *thousands_sep;
    char *grouping;
    char *int_curr_symbol;
    char *currency_symbol;
    char *mon_decimal_point;
    char *mon_thousands_sep;
    char *mon_grouping;
    char *positive_sign;
    char *negative_sign;
    char int_frac_digits;
    char frac_digits;
    char p_cs_precedes;
    char p_sep_by_space;
    char n_cs_precedes;
    char n_sep_by_space;
    char p_sign_posn;
    char n_sign_posn;
#ifdef _ANSI_SOURCE
    char _rest[6];
#else
    /* C99 7.11 */
    char int_p_cs_precedes;
    char int_p_sep_by_space;
    char int_n_cs_precedes;
    char int_n_sep_by_space;
    char int_p_sign_posn;
    char int_n_sign_posn;
#endif
};

extern char *setlocale(int, const char *);
extern struct lconv *localeconv(void);

#ifndef _ANSI_SOURCE
/* POSIX.1-2001 */
#define LC_MESSAGES 5
#endif

#endif
