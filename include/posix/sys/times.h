/* POSIX.1-2001, sys/times.h */
#ifndef _SPARROW_SYS_TIMES_H
#define _SPARROW_SYS_TIMES_H

#include <sys/types.h>

struct tms {
    clock_t tms_utime;
    clock_t tms_stime;
    clock_t tms_cutime;
    clock_t tms_cstime;
};

extern clock_t times(struct tms *);

#endif
