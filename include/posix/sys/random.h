/* Linux: random bytes. */
#ifndef _SPARROW_SYS_RANDOM_H
#define _SPARROW_SYS_RANDOM_H

#include <sys/types.h>

#define GRND_NONBLOCK 0x01
#define GRND_RANDOM 0x02

extern int getentropy(void *, size_t);
extern ssize_t getrandom(void *, size_t, unsigned int);

#endif
