/* An old name of string.h. */
#ifndef _SPARROW_MEMORY_H
#define _SPARROW_MEMORY_H

#include <string.h>

#endif
