/* POSIX.1-2001, utime.h */
#ifndef _SPARROW_UTIME_H
#define _SPARROW_UTIME_H

#include <sys/types.h>

struct utimbuf {
    time_t actime;
    time_t modtime;
};

extern int utime(const char *, const struct utimbuf *);

#endif
