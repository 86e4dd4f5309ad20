/* BSD */
#ifndef _SPARROW_SYS_PARAM_H
#define _SPARROW_SYS_PARAM_H

#include <endian.h>
#include <limits.h>
#include <signal.h>
#include <sys/types.h>

#define MAXHOSTNAMELEN 64
#define MAXPATHLEN PATH_MAX
#define NBBY 8
#define NGROUPS NGROUPS_MAX

#define MIN(first, second) ((first) < (second) ? (first) : (second))
#define MAX(first, second) ((first) > (second) ? (first) : (second))
#define howmany(size, part) (((size) + ((part) - 1)) / (part))
#define roundup(size, part) ((((size) + ((part) - 1)) / (part)) * (part))

#endif
