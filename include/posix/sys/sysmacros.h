/* GNU: the parts of a device's number, as functions. */
#ifndef _SPARROW_SYS_SYSMACROS_H
#define _SPARROW_SYS_SYSMACROS_H

#include <sys/types.h>

extern unsigned int major(dev_t);
extern dev_t makedev(unsigned int, unsigned int);
extern unsigned int minor(dev_t);

#endif
