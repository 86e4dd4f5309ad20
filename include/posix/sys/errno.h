/* GNU: the same as errno.h. */
#ifndef _SPARROW_SYS_ERRNO_H
#define _SPARROW_SYS_ERRNO_H

#include <errno.h>

#endif
