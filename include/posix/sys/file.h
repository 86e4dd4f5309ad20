/* BSD */
#ifndef _SPARROW_SYS_FILE_H
#define _SPARROW_SYS_FILE_H

#include <fcntl.h>

#define LOCK_SH 1
#define LOCK_EX 2
#define LOCK_NB 4
#define LOCK_UN 8

extern int flock(int, int);

#endif
