/* POSIX.1-2001, sys/uio.h */
#ifndef _SPARROW_SYS_UIO_H
#define _SPARROW_SYS_UIO_H

#include <sys/types.h>

struct iovec {
    void *iov_base;
    size_t iov_len;
};

extern ssize_t readv(int, const struct iovec *, int);
extern ssize_t writev(int, const struct iovec *, int);

#endif
