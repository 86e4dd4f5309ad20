/* BSD. The function is declared as one that may give any memory. */
#ifndef _SPARROW_ALLOCA_H
#define _SPARROW_ALLOCA_H

#include <stdlib.h>

#endif
