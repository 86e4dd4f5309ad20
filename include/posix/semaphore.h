/* POSIX.1-2001, semaphore.h. The sizes are those of glibc on x86-64. */
#ifndef _SPARROW_SEMAPHORE_H
#define _SPARROW_SEMAPHORE_H

#define _NEED_timespec
#define _NEED_time_t
#include <bits/types.h>

typedef struct { long _words[4]; } sem_t;

#define SEM_FAILED ((sem_t *)0)

extern int sem_close(sem_t *);
extern int sem_destroy(sem_t *);
extern int sem_getvalue(sem_t *, int *);
extern int sem_init(sem_t *, int, unsigned int);
extern sem_t *sem_open(const char *, int, ...);
extern int sem_post(sem_t *);
extern int sem_timedwait(sem_t *, const struct timespec *);
extern int sem_trywait(sem_t *);
extern int sem_unlink(const char *);
extern int sem_wait(sem_t *);

#endif
