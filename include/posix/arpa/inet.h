/* POSIX.1-2001, arpa/inet.h */
#ifndef _SPARROW_ARPA_INET_H
#define _SPARROW_ARPA_INET_H

#include <netinet/in.h>

extern in_addr_t inet_addr(const char *);
extern char *inet_ntoa(struct in_addr);
extern const char *inet_ntop(int, const void *, char *, socklen_t);
extern int inet_pton(int, const char *, void *);

/* BSD */
extern int inet_aton(const char *, struct in_addr *);

#endif
