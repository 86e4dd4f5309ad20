/* BSD: types of the network, in its order of bytes. */
#ifndef _SPARROW_NETINET_IN_SYSTM_H
#define _SPARROW_NETINET_IN_SYSTM_H

#include <sys/types.h>

typedef u_int16_t n_short;
typedef u_int32_t n_long;
typedef u_int32_t n_time;

#endif
