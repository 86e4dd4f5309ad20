/* The loop of main.rt in C, with the operations written as plainly. */
#include <stdio.h>
#include <string.h>
#include <time.h>

typedef __int128 number;
struct interval { int empty; number lo, hi; };
struct range { number lo, hi; unsigned width; };

#define ROUNDS 2000000u

static const char *const calls[] = { "add", "sub", "mul", "div", "rem", "shl", "shr", "and", "or", "xor" };
enum { ADD, SUB, MUL, DIV, REM, SHL, SHR, AND, OR, XOR };

static const struct interval none = { 1, 0, 0 };
static number least(number a, number b) { return a < b ? a : b; }
static number greatest(number a, number b) { return a > b ? a : b; }
static struct interval of(number lo, number hi) { struct interval i = { 0, lo, hi }; return i; }
static struct interval whole(struct range k) { return of(k.lo, k.hi); }

static struct interval ranged(struct interval i, struct range k)
{
    return i.empty || (k.lo <= i.lo && i.hi <= k.hi) ? i : whole(k);
}

static struct interval span(number p, number q, number r, number s)
{
    return of(least(least(p, q), least(r, s)), greatest(greatest(p, q), greatest(r, s)));
}

static number times(number a, number b)
{
    number product;
    if (__builtin_mul_overflow(a, b, &product))
        return (a < 0) == (b < 0) ? ((number)1 << 126) - 1 + ((number)1 << 126) : -((number)1 << 126) * 2;
    return product;
}

static struct interval product(struct interval i, struct interval j)
{
    return span(times(i.lo, j.lo), times(i.lo, j.hi), times(i.hi, j.lo), times(i.hi, j.hi));
}

static struct interval hull(struct interval i, struct interval j)
{
    return i.empty ? j : j.empty ? i : of(least(i.lo, j.lo), greatest(i.hi, j.hi));
}

static struct interval quotient(struct interval i, number lo, number hi)
{
    return lo <= hi ? span(i.lo / lo, i.lo / hi, i.hi / lo, i.hi / hi) : none;
}

static struct interval remainder_of(struct interval i, struct interval j)
{
    number small = greatest(greatest(j.lo, -j.hi), 0), size = greatest(-j.lo, j.hi);
    if (size == 0)
        return none;
    if (greatest(-i.lo, i.hi) < small)
        return i;
    return of(least(greatest(i.lo, 1 - size), 0), greatest(least(i.hi, size - 1), 0));
}

static number all_ones(number high)
{
    number power = 1;
    while (power <= high)
        power *= 2;
    return power - 1;
}

static struct interval apply(int call, struct interval i, struct interval j, struct range k)
{
    int fits = 0 <= j.lo && j.hi < (number)k.width;
    if (i.empty || j.empty)
        return none;
    switch (call) {
    case ADD: return ranged(of(i.lo + j.lo, i.hi + j.hi), k);
    case SUB: return ranged(of(i.lo - j.hi, i.hi - j.lo), k);
    case MUL: return ranged(product(i, j), k);
    case DIV: return ranged(hull(quotient(i, greatest(j.lo, 1), j.hi), quotient(i, j.lo, least(j.hi, -1))), k);
    case REM: return ranged(remainder_of(i, j), k);
    case SHL: return fits ? ranged(product(i, of((number)1 << (int)j.lo, (number)1 << (int)j.hi)), k) : whole(k);
    case SHR:
        return fits ? ranged(span(i.lo >> (int)j.lo, i.lo >> (int)j.hi, i.hi >> (int)j.lo, i.hi >> (int)j.hi), k) : whole(k);
    case AND:
        if (i.lo >= 0 && j.lo >= 0)
            return ranged(of(0, least(i.hi, j.hi)), k);
        return ranged(i.lo >= 0 ? of(0, i.hi) : j.lo >= 0 ? of(0, j.hi) : whole(k), k);
    case OR:
        return ranged(i.lo >= 0 && j.lo >= 0 ? of(greatest(i.lo, j.lo), all_ones(greatest(i.hi, j.hi))) : whole(k), k);
    default:
        return ranged(i.lo >= 0 && j.lo >= 0 ? of(0, all_ones(greatest(i.hi, j.hi))) : whole(k), k);
    }
}

static number mixed(int call)
{
    struct range int_range = { -((number)1 << 31), ((number)1 << 31) - 1, 32 };
    number mix = 0;
    unsigned round;
    for (round = 0; round < ROUNDS; round++) {
        number a = (number)(round % 200) - 100, c = round % 11;
        struct interval r = apply(call, of(a, a + round % 7), of(c, c + round % 5), int_range);
        mix = r.empty ? mix + 1 : mix + r.lo - r.hi;
    }
    return mix;
}

int main(void)
{
    int call;
    for (call = ADD; call <= XOR; call++) {
        struct timespec start, end;
        number mix;
        clock_gettime(CLOCK_MONOTONIC, &start);
        mix = mixed(call);
        clock_gettime(CLOCK_MONOTONIC, &end);
        printf("%s %lld %lld\n", calls[call],
               ((end.tv_sec - start.tv_sec) * 1000000000LL + end.tv_nsec - start.tv_nsec) / 2000, (long long)mix);
    }
    return 0;
}
