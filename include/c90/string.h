/* C90 7.11 */
#ifndef _SPARROW_STRING_H
#define _SPARROW_STRING_H

#define _NEED_NULL
#define _NEED_size_t
#include <bits/types.h>

/* 7.11.2 */
extern void *memcpy(void *, const void *, size_t);
extern void *memmove(void *, const void *, size_t);
extern char *strcpy(char *, const char *);
extern char *strncpy(char *, const char *, size_t);

/* 7.11.3 */
extern char *strcat(char *, const char *);
extern char *strncat(char *, const char *, size_t);

/* 7.11.4 */
extern int memcmp(const void *, const void *, size_t);
extern int strcmp(const char *, const char *);
extern int strcoll(const char *, const char *);
extern int strncmp(const char *, const char *, size_t);
extern size_t strxfrm(char *, const char *, size_t);

/* 7.11.5 */
extern void *memchr(const void *, int, size_t);
extern char *strchr(const char *, int);
extern size_t strcspn(const char *, const char *);
extern char *strpbrk(const char *, const char *);
extern char *strrchr(const char *, int);
extern size_t strspn(const char *, const char *);
extern char *strstr(const char *, const char *);
extern char *strtok(char *, const char *);

/* 7.11.6 */
extern void *memset(void *, int, size_t);
extern char *strerror(int);
extern size_t strlen(const char *);

#ifndef _ANSI_SOURCE
/* POSIX.1-2001 and -2008 */
extern void *memccpy(void *, const void *, int, size_t);
extern char *stpcpy(char *, const char *);
extern char *stpncpy(char *, const char *, size_t);
extern char *strdup(const char *);
extern char *strndup(const char *, size_t);
extern size_t strnlen(const char *, size_t);
extern char *strsignal(int);
extern char *strtok_r(char *, const char *, char **);
#include <strings.h>

/* BSD */
extern char *strsep(char **, const char *);
#endif

#ifdef _GNU_SOURCE
extern void *memmem(const void *, size_t, const void *, size_t);
extern void *mempcpy(void *, const void *, size_t);
extern void *memrchr(const void *, int, size_t);
extern void *rawmemchr(const void *, int);
extern char *strcasestr(const char *, const char *);
extern char *strchrnul(const char *, int);
extern int strverscmp(const char *, const char *);
#endif

#endif
