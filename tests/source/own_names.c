/*
 * C90 7.1.3: names that no section gives to these headers are the program's. Those of POSIX are
 * hidden by _ANSI_SOURCE.
 */
#include <ctype.h>
#include <errno.h>
#include <limits.h>
#include <locale.h>
#include <math.h>
#include <setjmp.h>
#include <signal.h>
#include <stdio.h>
#include <stdlib.h>
#include <string.h>
#include <time.h>

typedef char *ptrdiff_t;
static int va_list, va_start, va_arg, va_end, offsetof, assert;
static int off_t, pid_t, ssize_t, sigset_t, sigjmp_buf, clockid_t, alloca;
static int bcopy, index, getline, fileno, popen, snprintf, random, setenv;
static int kill, sigaction, siginfo_t, nanosleep, tzset, timezone, daylight;
enum { PATH_MAX = 1, SSIZE_MAX, NSIG, L_ctermid, CLOCK_REALTIME };
struct timespec { int own; };
struct timeval { int own; };
struct sigaction { int own; };
struct _file { int own; };
struct _IO_FILE *stream;

int main(void)
{
    return va_list;
}
