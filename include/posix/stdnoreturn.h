/* C11 7.23. The word falls away. */
#ifndef _SPARROW_STDNORETURN_H
#define _SPARROW_STDNORETURN_H

#define noreturn

#endif
