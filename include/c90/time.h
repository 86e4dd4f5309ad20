/* C90 7.12. A call of difftime is refused: floating type. */
#ifndef _SPARROW_TIME_H
#define _SPARROW_TIME_H

#define _NEED_NULL
#define _NEED_size_t
#define _NEED_clock_t
#define _NEED_time_t
#include <bits/types.h>

#define CLOCKS_PER_SEC 1000000L

struct tm {
    int tm_sec;
    int tm_min;
    int tm_hour;
    int tm_mday;
    int tm_mon;
    int tm_year;
    int tm_wday;
    int tm_yday;
    int tm_isdst;
#ifndef _ANSI_SOURCE
    /* BSD */
    long tm_gmtoff;
    const char *tm_zone;
#endif
};

/* 7.12.2 */
extern clock_t clock(void);
extern double difftime(time_t, time_t);
extern time_t mktime(struct tm *);
extern time_t time(time_t *);

/* 7.12.3 */
extern char *asctime(const struct tm *);
extern char *ctime(const time_t *);
extern struct tm *gmtime(const time_t *);
extern struct tm *localtime(const time_t *);
extern size_t strftime(char *, size_t, const char *, const struct tm *);

#ifndef _ANSI_SOURCE
/* POSIX.1-2001 */
#define _NEED_pid_t
#define _NEED_timespec
#include <bits/types.h>

#define CLOCK_REALTIME 0
#define CLOCK_MONOTONIC 1
#define CLOCK_PROCESS_CPUTIME_ID 2

typedef int clockid_t;

extern char *tzname[2];
extern long timezone;
extern int daylight;

extern char *asctime_r(const struct tm *, char *);
extern int clock_getres(clockid_t, struct timespec *);
extern int clock_gettime(clockid_t, struct timespec *);
extern int clock_settime(clockid_t, const struct timespec *);
extern char *ctime_r(const time_t *, char *);
extern struct tm *gmtime_r(const time_t *, struct tm *);
extern struct tm *localtime_r(const time_t *, struct tm *);
extern int nanosleep(const struct timespec *, struct timespec *);
extern char *strptime(const char *, const char *, struct tm *);
extern void tzset(void);

/* BSD */
extern int stime(const time_t *);
extern time_t timegm(struct tm *);
#endif

#endif
