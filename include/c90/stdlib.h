/* C90 7.10. Without rewriting, calls of atof and strtod are refused: floating type. */
#ifndef _SPARROW_STDLIB_H
#define _SPARROW_STDLIB_H

#define _NEED_NULL
#define _NEED_size_t
#define _NEED_wchar_t
#include <bits/types.h>

typedef struct {
    int quot;
    int rem;
} div_t;
typedef struct {
    long quot;
    long rem;
} ldiv_t;

#define EXIT_FAILURE 1
#define EXIT_SUCCESS 0
#define RAND_MAX 2147483647
extern size_t __mb_cur_max(void);
#define MB_CUR_MAX __mb_cur_max()

/* 7.10.1 */
extern double atof(const char *);
extern int atoi(const char *);
extern long atol(const char *);
extern double strtod(const char *, char **);
extern long strtol(const char *, char **, int);
extern unsigned long strtoul(const char *, char **, int);

/* 7.10.2 */
extern int rand(void);
extern void srand(unsigned int);

/* 7.10.3 */
extern void *calloc(size_t, size_t);
extern void free(void *);
extern void *malloc(size_t);
extern void *realloc(void *, size_t);

/* 7.10.4 */
extern void abort(void);
extern int atexit(void (*)(void));
extern void exit(int);
extern char *getenv(const char *);
extern int system(const char *);

/* 7.10.5 */
extern void *bsearch(const void *, const void *, size_t, size_t,
                     int (*)(const void *, const void *));
extern void qsort(void *, size_t, size_t, int (*)(const void *, const void *));

/* 7.10.6 */
extern int abs(int);
extern div_t div(int, int);
extern long labs(long);
extern ldiv_t ldiv(long, long);

/* 7.10.7 and 7.10.8 */
extern int mblen(const char *, size_t);
extern int mbtowc(wchar_t *, const char *, size_t);
extern int wctomb(char *, wchar_t);
extern size_t mbstowcs(wchar_t *, const char *, size_t);
extern size_t wcstombs(char *, const wchar_t *, size_t);

#ifndef _ANSI_SOURCE
/* POSIX.1-2001 and -2008 */
extern void _Exit(int);
extern long atoll(const char *);
extern long llabs(long);
extern float strtof(const char *, char **);
extern long double strtold(const char *, char **);
extern long strtoll(const char *, char **, int);
extern unsigned long strtoull(const char *, char **, int);
extern char *mkdtemp(char *);
extern int mkstemp(char *);
extern char *mktemp(char *);
extern int posix_memalign(void **, size_t, size_t);
extern int putenv(char *);
extern int rand_r(unsigned int *);
extern long random(void);
extern char *realpath(const char *, char *);
extern int setenv(const char *, const char *, int);
extern void srandom(unsigned int);
extern int unsetenv(const char *);

/* BSD */
extern void *alloca(size_t);
extern int getloadavg(double *, int);
extern void *reallocarray(void *, size_t, size_t);
#endif

#ifdef _GNU_SOURCE
extern char *canonicalize_file_name(const char *);
extern char *secure_getenv(const char *);
#endif

#endif
