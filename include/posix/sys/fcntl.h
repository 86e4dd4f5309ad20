/* GNU: the same as fcntl.h. */
#ifndef _SPARROW_SYS_FCNTL_H
#define _SPARROW_SYS_FCNTL_H

#include <fcntl.h>

#endif
