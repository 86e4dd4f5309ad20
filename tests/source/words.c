/* Names that GNU C gives are gone, words of GNU C and C99 fall away, and trigraphs are read. */
#if defined __GNUC__ || defined __GNUC_MINOR__ || defined linux || defined unix
#error a program would take its GNU paths
#endif
#if defined __SIZEOF_INT128__ || defined __SSE2__ || !defined __STRICT_ANSI__
#error a program would take its GNU paths
#endif

__extension__ typedef __signed__ char small;
typedef __signed char little;
static int room??(3??) __attribute__((unused)), more[2] __attribute((aligned(8)));

static inline int first(const int *restrict p, __const int *__restrict q)
{
    return __builtin_expect(*p > *q, 1) ? *p : *q;
}

static __inline int second(__const__ int *__restrict__ p, __volatile int *q)
{
    return *p + *q;
}

_Noreturn static __inline__ void stop(__volatile__ int *p)
{
    for (;;)
        *p = 0;
}

int main(void)
{
    small s = 1;
    little l = 1;

    room[2] = first(room, more) + s + l;
    more[1] = second(room, more);
    stop(more);
    return 0;
}
