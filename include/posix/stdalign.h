/* C11 7.15. An _Alignas in a struct or typedef is refused; elsewhere it falls away. */
#ifndef _SPARROW_STDALIGN_H
#define _SPARROW_STDALIGN_H

#define alignas _Alignas
#define __alignas_is_defined 1

#endif
