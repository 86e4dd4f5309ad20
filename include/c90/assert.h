/* C90 7.2. It may be included again with another NDEBUG, so it has no guard. */
#undef assert
#ifndef _ANSI_SOURCE
/* C11 7.2. */
#undef static_assert
#define static_assert _Static_assert
#endif
#ifdef NDEBUG
#define assert(expression) ((void)0)
#else
extern void abort(void);
#define assert(expression) ((expression) ? (void)0 : abort())
#endif
