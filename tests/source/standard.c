/*
 * C90 7 over the fifteen headers: each macro, type and function that its sections name. A function
 * that no header declares is refused here as an undeclared name. One of another type is refused as
 * a redeclared name, and a constant of another value as a bad length. Values are those of Linux on
 * x86-64.
 */
#include <assert.h>
#include <ctype.h>
#include <errno.h>
#include <float.h>
#include <limits.h>
#include <locale.h>
#include <math.h>
#include <setjmp.h>
#include <signal.h>
#include <stdarg.h>
#include <stddef.h>
#include <stdio.h>
#include <stdlib.h>
#include <string.h>
#include <time.h>

#define HOLDS(name, condition) extern char name[(condition) ? 1 : -1]
/* The first line refuses a function that no header declares, the second another type. */
#define GIVES(type, name, parameters) \
    extern char has_##name[sizeof(&name)]; \
    extern type name parameters

/* 5.2.4.2.1 */
HOLDS(bits, CHAR_BIT == 8);
HOLDS(chars, SCHAR_MIN == -128 && SCHAR_MAX == 127 && UCHAR_MAX == 255);
HOLDS(plain_chars, CHAR_MIN == -128 && CHAR_MAX == 127 && MB_LEN_MAX == 16);
HOLDS(shorts, SHRT_MIN == -32768 && SHRT_MAX == 32767 && USHRT_MAX == 65535);
HOLDS(ints, INT_MIN == -0x7fffffff - 1 && INT_MAX == 0x7fffffff && UINT_MAX == 0xffffffffU);
HOLDS(longs, LONG_MIN == -LONG_MAX - 1 && LONG_MAX == 0x7fffffffffffffffL);
HOLDS(unsigned_longs, ULONG_MAX == 0xffffffffffffffffUL);
HOLDS(int_size, sizeof(INT_MAX) == 4 && sizeof(UINT_MAX) == 4 && sizeof(INT_MIN) == 4);
HOLDS(long_size, sizeof(LONG_MAX) == 8 && sizeof(ULONG_MAX) == 8 && sizeof(LONG_MIN) == 8);

/* 5.2.4.2.2. The floating ones can't be compared here. */
HOLDS(radix, FLT_RADIX == 2 && FLT_ROUNDS == 1);
HOLDS(digits, FLT_MANT_DIG == 24 && DBL_MANT_DIG == 53 && LDBL_MANT_DIG == 64);
HOLDS(decimal_digits, FLT_DIG == 6 && DBL_DIG == 15 && LDBL_DIG == 18);
HOLDS(least, FLT_MIN_EXP == -125 && DBL_MIN_EXP == -1021 && LDBL_MIN_EXP == -16381);
HOLDS(least_10, FLT_MIN_10_EXP == -37 && DBL_MIN_10_EXP == -307 && LDBL_MIN_10_EXP == -4931);
HOLDS(greatest, FLT_MAX_EXP == 128 && DBL_MAX_EXP == 1024 && LDBL_MAX_EXP == 16384);
HOLDS(greatest_10, FLT_MAX_10_EXP == 38 && DBL_MAX_10_EXP == 308 && LDBL_MAX_10_EXP == 4932);
#if !defined FLT_MAX || !defined FLT_EPSILON || !defined FLT_MIN || !defined DBL_MAX \
    || !defined DBL_EPSILON || !defined DBL_MIN || !defined LDBL_MAX || !defined LDBL_EPSILON \
    || !defined LDBL_MIN
#error a macro of float.h is missing
#endif

/* 7.1.4 and 7.1.6 */
HOLDS(errors, EDOM == 33 && ERANGE == 34);
HOLDS(sizes, sizeof(size_t) == 8 && (size_t)-1 > 0);
HOLDS(differences, sizeof(ptrdiff_t) == 8 && (ptrdiff_t)-1 < 0);
HOLDS(wide_characters, sizeof(wchar_t) == 4);
extern char null[sizeof(NULL)];
#if !defined errno || !defined NULL || !defined offsetof
#error a macro of errno.h or stddef.h is missing
#endif

/* 7.2 */
#ifndef assert
#error assert is missing
#endif

/* 7.3 */
GIVES(int, isalnum, (int c));
GIVES(int, isalpha, (int c));
GIVES(int, iscntrl, (int c));
GIVES(int, isdigit, (int c));
GIVES(int, isgraph, (int c));
GIVES(int, islower, (int c));
GIVES(int, isprint, (int c));
GIVES(int, ispunct, (int c));
GIVES(int, isspace, (int c));
GIVES(int, isupper, (int c));
GIVES(int, isxdigit, (int c));
GIVES(int, tolower, (int c));
GIVES(int, toupper, (int c));

/* 7.4 */
HOLDS(categories, LC_CTYPE == 0 && LC_NUMERIC == 1 && LC_TIME == 2 && LC_COLLATE == 3);
HOLDS(all_categories, LC_MONETARY == 4 && LC_ALL == 6);
HOLDS(strings_of_lconv, sizeof((struct lconv *)0)->decimal_point == 8
    && sizeof((struct lconv *)0)->thousands_sep == 8 && sizeof((struct lconv *)0)->grouping == 8
    && sizeof((struct lconv *)0)->int_curr_symbol == 8
    && sizeof((struct lconv *)0)->currency_symbol == 8
    && sizeof((struct lconv *)0)->mon_decimal_point == 8
    && sizeof((struct lconv *)0)->mon_thousands_sep == 8
    && sizeof((struct lconv *)0)->mon_grouping == 8
    && sizeof((struct lconv *)0)->positive_sign == 8
    && sizeof((struct lconv *)0)->negative_sign == 8);
HOLDS(chars_of_lconv, sizeof((struct lconv *)0)->int_frac_digits == 1
    && sizeof((struct lconv *)0)->frac_digits == 1
    && sizeof((struct lconv *)0)->p_cs_precedes == 1
    && sizeof((struct lconv *)0)->p_sep_by_space == 1
    && sizeof((struct lconv *)0)->n_cs_precedes == 1
    && sizeof((struct lconv *)0)->n_sep_by_space == 1
    && sizeof((struct lconv *)0)->p_sign_posn == 1
    && sizeof((struct lconv *)0)->n_sign_posn == 1);
GIVES(char *, setlocale, (int category, const char *locale));
GIVES(struct lconv *, localeconv, (void));

/* 7.5 */
#ifndef HUGE_VAL
#error HUGE_VAL is missing
#endif
GIVES(double, acos, (double x));
GIVES(double, asin, (double x));
GIVES(double, atan, (double x));
GIVES(double, atan2, (double y, double x));
GIVES(double, cos, (double x));
GIVES(double, sin, (double x));
GIVES(double, tan, (double x));
GIVES(double, cosh, (double x));
GIVES(double, sinh, (double x));
GIVES(double, tanh, (double x));
GIVES(double, exp, (double x));
GIVES(double, frexp, (double value, int *exp));
GIVES(double, ldexp, (double x, int exp));
GIVES(double, log, (double x));
GIVES(double, log10, (double x));
GIVES(double, modf, (double value, double *iptr));
GIVES(double, pow, (double x, double y));
GIVES(double, sqrt, (double x));
GIVES(double, ceil, (double x));
GIVES(double, fabs, (double x));
GIVES(double, floor, (double x));
GIVES(double, fmod, (double x, double y));

/* 7.6 */
extern jmp_buf environment;
HOLDS(environments, sizeof(environment) >= 8);
/* No expression may name it: it is refused where it is used (U2). */
extern void longjmp(jmp_buf env, int val);

/* 7.7 */
extern sig_atomic_t atomic;
typedef void handler(int);
extern handler *default_action, *no_action, *no_handler;
HOLDS(defaults, sizeof(default_action == SIG_DFL) && sizeof(no_action == SIG_IGN)
    && sizeof(no_handler == SIG_ERR));
HOLDS(faults, SIGABRT == 6 && SIGFPE == 8 && SIGILL == 4 && SIGSEGV == 11);
HOLDS(interrupts, SIGINT == 2 && SIGTERM == 15);
GIVES(handler *, signal, (int sig, handler *func));
GIVES(int, raise, (int sig));

/* 7.8 */
extern va_list arguments;
#if !defined va_start || !defined va_arg || !defined va_end
#error a macro of stdarg.h is missing
#endif

/* 7.9.1 */
extern fpos_t place;
extern FILE *stdin, *stdout, *stderr;
#if !defined stdin || !defined stdout || !defined stderr
#error a stream is no macro
#endif
HOLDS(modes, _IOFBF == 0 && _IOLBF == 1 && _IONBF == 2);
HOLDS(buffers, BUFSIZ >= 256 && EOF == -1 && FOPEN_MAX >= 8 && FILENAME_MAX == 4096);
HOLDS(places, SEEK_SET == 0 && SEEK_CUR == 1 && SEEK_END == 2);
HOLDS(temporaries, L_tmpnam == 20 && TMP_MAX >= 25);

/* 7.9.4 to 7.9.6 */
GIVES(int, remove, (const char *filename));
GIVES(int, rename, (const char *old, const char *new));
GIVES(FILE *, tmpfile, (void));
GIVES(char *, tmpnam, (char *s));
GIVES(int, fclose, (FILE *stream));
GIVES(int, fflush, (FILE *stream));
GIVES(FILE *, fopen, (const char *filename, const char *mode));
GIVES(FILE *, freopen, (const char *filename, const char *mode, FILE *stream));
GIVES(void, setbuf, (FILE *stream, char *buf));
GIVES(int, setvbuf, (FILE *stream, char *buf, int mode, size_t size));
GIVES(int, fprintf, (FILE *stream, const char *format, ...));
GIVES(int, fscanf, (FILE *stream, const char *format, ...));
GIVES(int, printf, (const char *format, ...));
GIVES(int, scanf, (const char *format, ...));
GIVES(int, sprintf, (char *s, const char *format, ...));
GIVES(int, sscanf, (const char *s, const char *format, ...));
GIVES(int, vfprintf, (FILE *stream, const char *format, va_list arg));
GIVES(int, vprintf, (const char *format, va_list arg));
GIVES(int, vsprintf, (char *s, const char *format, va_list arg));

/* 7.9.7 to 7.9.10 */
GIVES(int, fgetc, (FILE *stream));
GIVES(int, fputc, (int c, FILE *stream));
GIVES(char *, fgets, (char *s, int n, FILE *stream));
GIVES(char *, gets, (char *s));
GIVES(int, fputs, (const char *s, FILE *stream));
GIVES(int, puts, (const char *s));
GIVES(int, getc, (FILE *stream));
GIVES(int, getchar, (void));
GIVES(int, putc, (int c, FILE *stream));
GIVES(int, putchar, (int c));
GIVES(int, ungetc, (int c, FILE *stream));
GIVES(size_t, fread, (void *ptr, size_t size, size_t nmemb, FILE *stream));
GIVES(size_t, fwrite, (const void *ptr, size_t size, size_t nmemb, FILE *stream));
GIVES(int, fgetpos, (FILE *stream, fpos_t *pos));
GIVES(int, fsetpos, (FILE *stream, const fpos_t *pos));
GIVES(int, fseek, (FILE *stream, long int offset, int whence));
GIVES(long int, ftell, (FILE *stream));
GIVES(void, rewind, (FILE *stream));
GIVES(void, clearerr, (FILE *stream));
GIVES(void, perror, (const char *s));
GIVES(int, feof, (FILE *stream));
GIVES(int, ferror, (FILE *stream));

/* 7.10 */
typedef int comparison(const void *, const void *);
HOLDS(exits, EXIT_SUCCESS == 0 && EXIT_FAILURE == 1);
HOLDS(randoms, RAND_MAX == 2147483647 && sizeof(MB_CUR_MAX) >= 4);
HOLDS(quotients, sizeof((div_t *)0)->quot == 4 && sizeof((div_t *)0)->rem == 4);
HOLDS(long_quotients, sizeof((ldiv_t *)0)->quot == 8 && sizeof((ldiv_t *)0)->rem == 8);
GIVES(double, atof, (const char *nptr));
GIVES(double, strtod, (const char *nptr, char **endptr));
GIVES(int, atoi, (const char *nptr));
GIVES(long int, atol, (const char *nptr));
GIVES(long int, strtol, (const char *nptr, char **endptr, int base));
GIVES(unsigned long int, strtoul, (const char *nptr, char **endptr, int base));
GIVES(int, rand, (void));
GIVES(void, srand, (unsigned int seed));
GIVES(void *, calloc, (size_t nmemb, size_t size));
GIVES(void *, malloc, (size_t size));
GIVES(void *, realloc, (void *ptr, size_t size));
GIVES(void, abort, (void));
GIVES(void, exit, (int status));
GIVES(void, free, (void *ptr));
GIVES(int, atexit, (void (*func)(void)));
GIVES(int, system, (const char *string));
GIVES(char *, getenv, (const char *name));
GIVES(void *, bsearch,
    (const void *key, const void *base, size_t nmemb, size_t size, comparison *compar));
GIVES(void, qsort, (void *base, size_t nmemb, size_t size, comparison *compar));
GIVES(int, abs, (int j));
GIVES(long int, labs, (long int j));
GIVES(div_t, div, (int numer, int denom));
GIVES(ldiv_t, ldiv, (long int numer, long int denom));
GIVES(int, mblen, (const char *s, size_t n));
GIVES(int, mbtowc, (wchar_t *pwc, const char *s, size_t n));
GIVES(int, wctomb, (char *s, wchar_t wchar));
GIVES(size_t, mbstowcs, (wchar_t *pwcs, const char *s, size_t n));
GIVES(size_t, wcstombs, (char *s, const wchar_t *pwcs, size_t n));

/* 7.11 */
GIVES(void *, memcpy, (void *s1, const void *s2, size_t n));
GIVES(void *, memmove, (void *s1, const void *s2, size_t n));
GIVES(char *, strcpy, (char *s1, const char *s2));
GIVES(char *, strncpy, (char *s1, const char *s2, size_t n));
GIVES(char *, strcat, (char *s1, const char *s2));
GIVES(char *, strncat, (char *s1, const char *s2, size_t n));
GIVES(int, memcmp, (const void *s1, const void *s2, size_t n));
GIVES(int, strcmp, (const char *s1, const char *s2));
GIVES(int, strcoll, (const char *s1, const char *s2));
GIVES(int, strncmp, (const char *s1, const char *s2, size_t n));
GIVES(size_t, strxfrm, (char *s1, const char *s2, size_t n));
GIVES(void *, memchr, (const void *s, int c, size_t n));
GIVES(char *, strchr, (const char *s, int c));
GIVES(char *, strrchr, (const char *s, int c));
GIVES(size_t, strcspn, (const char *s1, const char *s2));
GIVES(size_t, strspn, (const char *s1, const char *s2));
GIVES(char *, strpbrk, (const char *s1, const char *s2));
GIVES(char *, strstr, (const char *s1, const char *s2));
GIVES(char *, strtok, (char *s1, const char *s2));
GIVES(void *, memset, (void *s, int c, size_t n));
GIVES(char *, strerror, (int errnum));
GIVES(size_t, strlen, (const char *s));

/* 7.12 */
HOLDS(ticks, CLOCKS_PER_SEC == 1000000);
HOLDS(members_of_tm, sizeof((struct tm *)0)->tm_sec == 4 && sizeof((struct tm *)0)->tm_min == 4
    && sizeof((struct tm *)0)->tm_hour == 4 && sizeof((struct tm *)0)->tm_mday == 4
    && sizeof((struct tm *)0)->tm_mon == 4 && sizeof((struct tm *)0)->tm_year == 4
    && sizeof((struct tm *)0)->tm_wday == 4 && sizeof((struct tm *)0)->tm_yday == 4
    && sizeof((struct tm *)0)->tm_isdst == 4);
GIVES(clock_t, clock, (void));
GIVES(double, difftime, (time_t time1, time_t time0));
GIVES(time_t, mktime, (struct tm *timeptr));
GIVES(time_t, time, (time_t *timer));
GIVES(char *, asctime, (const struct tm *timeptr));
GIVES(char *, ctime, (const time_t *timer));
GIVES(struct tm *, gmtime, (const time_t *timer));
GIVES(struct tm *, localtime, (const time_t *timer));
GIVES(size_t, strftime, (char *s, size_t maxsize, const char *format, const struct tm *timeptr));

int main(void)
{
    return 0;
}
