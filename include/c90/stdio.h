/* C90 7.9. The numbers are those of Linux; getc and its kin are functions, and no macros. */
#ifndef _SPARROW_STDIO_H
#define _SPARROW_STDIO_H

#define _NEED_NULL
#define _NEED_size_t
#include <bits/types.h>

/* The type va_list of 7.8, whose name belongs to the program where stdarg.h isn't included. */
typedef char *__va_list;

/* 7.9.1 */
typedef struct _IO_FILE {
    int _descriptor;
} FILE;
typedef struct {
    long _place;
    long _state;
} fpos_t;

#define _IOFBF 0
#define _IOLBF 1
#define _IONBF 2
#define BUFSIZ 8192
#define EOF (-1)
#define FOPEN_MAX 16
#define FILENAME_MAX 4096
#define L_tmpnam 20
#define SEEK_SET 0
#define SEEK_CUR 1
#define SEEK_END 2
#define TMP_MAX 238328

extern FILE *stdin;
extern FILE *stdout;
extern FILE *stderr;
#define stdin stdin
#define stdout stdout
#define stderr stderr

/* 7.9.4 */
extern int remove(const char *);
extern int rename(const char *, const char *);
extern FILE *tmpfile(void);
extern char *tmpnam(char *);

/* 7.9.5 */
extern int fclose(FILE *);
extern int fflush(FILE *);
extern FILE *fopen(const char *, const char *);
extern FILE *freopen(const char *, const char *, FILE *);
extern void setbuf(FILE *, char *);
extern int setvbuf(FILE *, char *, int, size_t);

/* 7.9.6 */
extern int fprintf(FILE *, const char *, ...);
extern int fscanf(FILE *, const char *, ...);
extern int printf(const char *, ...);
extern int scanf(const char *, ...);
extern int sprintf(char *, const char *, ...);
extern int sscanf(const char *, const char *, ...);
extern int vfprintf(FILE *, const char *, __va_list);
extern int vprintf(const char *, __va_list);
extern int vsprintf(char *, const char *, __va_list);

/* 7.9.7 */
extern int fgetc(FILE *);
extern char *fgets(char *, int, FILE *);
extern int fputc(int, FILE *);
extern int fputs(const char *, FILE *);
extern int getc(FILE *);
extern int getchar(void);
extern char *gets(char *);
extern int putc(int, FILE *);
extern int putchar(int);
extern int puts(const char *);
extern int ungetc(int, FILE *);

/* 7.9.8 */
extern size_t fread(void *, size_t, size_t, FILE *);
extern size_t fwrite(const void *, size_t, size_t, FILE *);

/* 7.9.9 */
extern int fgetpos(FILE *, fpos_t *);
extern int fseek(FILE *, long, int);
extern int fsetpos(FILE *, const fpos_t *);
extern long ftell(FILE *);
extern void rewind(FILE *);

/* 7.9.10 */
extern void clearerr(FILE *);
extern int feof(FILE *);
extern int ferror(FILE *);
extern void perror(const char *);

#ifndef _ANSI_SOURCE
/* POSIX.1-2001 and -2008 */
#define _NEED_off_t
#define _NEED_ssize_t
#define _NEED_va_list
#include <bits/types.h>

#define L_ctermid 9
#define P_tmpdir "/tmp"

extern char *ctermid(char *);
extern int dprintf(int, const char *, ...);
extern FILE *fdopen(int, const char *);
extern int fileno(FILE *);
extern void flockfile(FILE *);
extern FILE *fmemopen(void *, size_t, const char *);
extern int fseeko(FILE *, off_t, int);
extern off_t ftello(FILE *);
extern void funlockfile(FILE *);
extern int getc_unlocked(FILE *);
extern int getchar_unlocked(void);
extern ssize_t getdelim(char **, size_t *, int, FILE *);
extern ssize_t getline(char **, size_t *, FILE *);
extern FILE *open_memstream(char **, size_t *);
extern int pclose(FILE *);
extern FILE *popen(const char *, const char *);
extern int putc_unlocked(int, FILE *);
extern int putchar_unlocked(int);
extern int snprintf(char *, size_t, const char *, ...);
extern char *tempnam(const char *, const char *);
extern int vdprintf(int, const char *, __va_list);
extern int vfscanf(FILE *, const char *, __va_list);
extern int vscanf(const char *, __va_list);
extern int vsnprintf(char *, size_t, const char *, __va_list);
extern int vsscanf(const char *, const char *, __va_list);

/* BSD */
extern int getw(FILE *);
extern int putw(int, FILE *);
extern void setbuffer(FILE *, char *, size_t);
extern void setlinebuf(FILE *);
#endif

#if defined _GNU_SOURCE || defined _LARGEFILE64_SOURCE
/* An off_t has 64 bits. */
#define fopen64 fopen
#define fseeko64 fseeko
#define ftello64 ftello
#define tmpfile64 tmpfile
#endif

#ifdef _GNU_SOURCE
extern int asprintf(char **, const char *, ...);
extern int vasprintf(char **, const char *, __va_list);
#endif

#endif
