/* An old name of stdlib.h's part C90 7.10.3. */
#ifndef _SPARROW_MALLOC_H
#define _SPARROW_MALLOC_H

#include <stdlib.h>

#endif
