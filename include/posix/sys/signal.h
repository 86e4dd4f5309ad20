/* GNU: the same as signal.h. */
#ifndef _SPARROW_SYS_SIGNAL_H
#define _SPARROW_SYS_SIGNAL_H

#include <signal.h>

#endif
