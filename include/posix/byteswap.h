/* GNU: bytes in the other order. */
#ifndef _SPARROW_BYTESWAP_H
#define _SPARROW_BYTESWAP_H

#include <stdint.h>

extern uint16_t bswap_16(uint16_t);
extern uint32_t bswap_32(uint32_t);
extern uint64_t bswap_64(uint64_t);

#endif
