/* SVID: crypt. */
#ifndef _SPARROW_CRYPT_H
#define _SPARROW_CRYPT_H

extern char *crypt(const char *, const char *);

#endif
