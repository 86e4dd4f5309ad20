/* BSD: the header of a packet, without the structs that have bit-fields. */
#ifndef _SPARROW_NETINET_IP_H
#define _SPARROW_NETINET_IP_H

#include <netinet/in.h>
#include <sys/types.h>

#define IPVERSION 4
#define IP_MAXPACKET 65535
#define MAXTTL 255
#define IPDEFTTL 64
#define IPTOS_LOWDELAY 0x10
#define IPTOS_THROUGHPUT 0x08
#define IPTOS_RELIABILITY 0x04
#define IPTOS_MINCOST 0x02
#define IPTOS_DSCP_MASK 0xfc
#define IPTOS_DSCP_AF11 0x28
#define IPTOS_DSCP_AF21 0x48
#define IPTOS_DSCP_AF41 0x88
#define IPTOS_DSCP_EF 0xb8
#define IPTOS_CLASS_CS1 0x20
#define IPTOS_CLASS_CS6 0xc0
#define IPOPT_EOL 0
#define IPOPT_NOP 1
#define IPOPT_LSRR 131
#define IPOPT_SSRR 137

#endif
