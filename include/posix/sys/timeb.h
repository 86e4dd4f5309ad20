/* POSIX.1-2001, sys/timeb.h */
#ifndef _SPARROW_SYS_TIMEB_H
#define _SPARROW_SYS_TIMEB_H

#include <sys/types.h>

struct timeb {
    time_t time;
    unsigned short millitm;
    short timezone;
    short dstflag;
};

extern int ftime(struct timeb *);

#endif
