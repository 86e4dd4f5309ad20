/* POSIX.1-2001, sys/time.h */
#ifndef _SPARROW_SYS_TIME_H
#define _SPARROW_SYS_TIME_H

#include <sys/select.h>
#include <sys/types.h>

struct itimerval {
    struct timeval it_interval;
    struct timeval it_value;
};

/* BSD */
struct timezone {
    int tz_minuteswest;
    int tz_dsttime;
};

#define ITIMER_REAL 0
#define ITIMER_VIRTUAL 1
#define ITIMER_PROF 2

extern int getitimer(int, struct itimerval *);
extern int gettimeofday(struct timeval *, void *);
extern int setitimer(int, const struct itimerval *, struct itimerval *);
extern int utimes(const char *, const struct timeval *);

/* BSD */
extern int futimes(int, const struct timeval *);
extern int lutimes(const char *, const struct timeval *);
extern int settimeofday(const struct timeval *, const struct timezone *);
#define timerclear(time) ((time)->tv_sec = (time)->tv_usec = 0)
#define timerisset(time) ((time)->tv_sec || (time)->tv_usec)
#define timercmp(left, right, compare) \
    ((left)->tv_sec == (right)->tv_sec ? ((left)->tv_usec compare (right)->tv_usec) \
                                       : ((left)->tv_sec compare (right)->tv_sec))
#define timeradd(left, right, result) \
    do { \
        (result)->tv_sec = (left)->tv_sec + (right)->tv_sec; \
        (result)->tv_usec = (left)->tv_usec + (right)->tv_usec; \
        if ((result)->tv_usec >= 1000000) { \
            ++(result)->tv_sec; \
            (result)->tv_usec -= 1000000; \
        } \
    } while (0)
#define timersub(left, right, result) \
    do { \
        (result)->tv_sec = (left)->tv_sec - (right)->tv_sec; \
        (result)->tv_usec = (left)->tv_usec - (right)->tv_usec; \
        if ((result)->tv_usec < 0) { \
            --(result)->tv_sec; \
            (result)->tv_usec += 1000000; \
        } \
    } while (0)

#endif
