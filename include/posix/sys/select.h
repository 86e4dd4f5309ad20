/* POSIX.1-2001, sys/select.h. The operations on sets are functions, as POSIX allows. */
#ifndef _SPARROW_SYS_SELECT_H
#define _SPARROW_SYS_SELECT_H

#define _NEED_sigset_t
#define _NEED_time_t
#define _NEED_timespec
#define _NEED_timeval
#include <bits/types.h>

#define FD_SETSIZE 1024
typedef struct {
    long _bits[FD_SETSIZE / 64];
} fd_set;

extern void FD_CLR(int, fd_set *);
extern int FD_ISSET(int, fd_set *);
extern void FD_SET(int, fd_set *);
extern void FD_ZERO(fd_set *);
extern int pselect(int, fd_set *, fd_set *, fd_set *, const struct timespec *, const sigset_t *);
extern int select(int, fd_set *, fd_set *, fd_set *, struct timeval *);

#endif
