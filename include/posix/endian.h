/* BSD, for the byte order of x86-64. */
#ifndef _SPARROW_ENDIAN_H
#define _SPARROW_ENDIAN_H

#include <stdint.h>

#define LITTLE_ENDIAN 1234
#define BIG_ENDIAN 4321
#define PDP_ENDIAN 3412
#define BYTE_ORDER LITTLE_ENDIAN

/* glibc's own names, which many programs test. */
#define __LITTLE_ENDIAN LITTLE_ENDIAN
#define __BIG_ENDIAN BIG_ENDIAN
#define __PDP_ENDIAN PDP_ENDIAN
#define __BYTE_ORDER BYTE_ORDER

extern uint16_t htobe16(uint16_t);
extern uint16_t htole16(uint16_t);
extern uint16_t be16toh(uint16_t);
extern uint16_t le16toh(uint16_t);
extern uint32_t htobe32(uint32_t);
extern uint32_t htole32(uint32_t);
extern uint32_t be32toh(uint32_t);
extern uint32_t le32toh(uint32_t);
extern uint64_t htobe64(uint64_t);
extern uint64_t htole64(uint64_t);
extern uint64_t be64toh(uint64_t);
extern uint64_t le64toh(uint64_t);

#endif
