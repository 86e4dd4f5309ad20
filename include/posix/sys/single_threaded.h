/* GNU: whether the process has one thread. */
#ifndef _SPARROW_SYS_SINGLE_THREADED_H
#define _SPARROW_SYS_SINGLE_THREADED_H

extern char __libc_single_threaded;

#endif
