/* GNU: the same as poll.h. */
#ifndef _SPARROW_SYS_POLL_H
#define _SPARROW_SYS_POLL_H

#include <poll.h>

#endif
