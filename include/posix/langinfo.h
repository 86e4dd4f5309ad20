/* POSIX.1-2001, langinfo.h */
#ifndef _SPARROW_LANGINFO_H
#define _SPARROW_LANGINFO_H

#define _NEED_nl_item
#include <bits/types.h>

#define CODESET 14
#define RADIXCHAR 0x10000
#define THOUSEP 0x10001
#define YESEXPR 0x50000
#define NOEXPR 0x50001

extern char *nl_langinfo(nl_item);

#endif
