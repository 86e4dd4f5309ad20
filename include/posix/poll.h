/* POSIX.1-2001, poll.h */
#ifndef _SPARROW_POLL_H
#define _SPARROW_POLL_H

struct pollfd {
    int fd;
    short events;
    short revents;
};

typedef unsigned long nfds_t;

#define POLLIN 0x001
#define POLLPRI 0x002
#define POLLOUT 0x004
#define POLLERR 0x008
#define POLLHUP 0x010
#define POLLNVAL 0x020

extern int poll(struct pollfd *, nfds_t, int);

#endif
