/* The loop of main.rt in C, with the calls written as plainly. */
#include <stdio.h>
#include <time.h>

typedef __int128 number;
struct octagon { unsigned size; number bounds[256]; };

#define ROUNDS 200000u
#define UNBOUNDED ((number)1 << 120)
#define MOST ((number)1 << 100)

enum call { CLOSE, JOIN, PROJECT };

static number least(number a, number b) { return a < b ? a : b; }
static number greatest(number a, number b) { return a > b ? a : b; }
static number sum(number a, number b) { return a < UNBOUNDED && b < UNBOUNDED ? a + b : UNBOUNDED; }

static number half_sum(number a, number b)
{
    return a < UNBOUNDED && b < UNBOUNDED ? (a + b) >> 1 : UNBOUNDED;
}

static number cut(number bound) { return bound > MOST ? UNBOUNDED : greatest(bound, -MOST); }

static void top(struct octagon *o, unsigned size)
{
    unsigned r, c;
    o->size = size;
    for (r = 0; r < 16; r++)
        for (c = 0; c < 16; c++)
            o->bounds[16 * r + c] = r == c ? 0 : UNBOUNDED;
}

static void set_pair(struct octagon *o, unsigned r, unsigned c, number to)
{
    o->bounds[16 * r + c] = to;
    o->bounds[16 * (c ^ 1) + (r ^ 1)] = to;
}

static void tie(struct octagon *o, unsigned x, unsigned y)
{
    unsigned r, c, rows = 2 * o->size;
    for (r = 0; r < rows; r++)
        for (c = 0; c < rows; c++)
            if (r != c && (r / 2 == x || c / 2 == x))
                o->bounds[16 * r + c] = UNBOUNDED;
    set_pair(o, 2 * y, 2 * x, 1);
    set_pair(o, 2 * x, 2 * y, -1);
}

static int close(struct octagon *o)
{
    unsigned k, r, c, rows = 2 * o->size;
    struct octagon d = *o;
    number unary[16];
    for (k = 0; k < rows; k++) {
        for (r = 0; r < rows; r++)
            for (c = 0; c < rows; c++) {
                number *entry = &d.bounds[16 * r + c];
                *entry = least(*entry, sum(d.bounds[16 * r + k], d.bounds[16 * k + c]));
            }
        for (r = 0; r < rows; r++)
            if (d.bounds[17 * r] < 0)
                return 0;
    }
    for (r = 0; r < rows; r++)
        unary[r] = d.bounds[16 * r + (r ^ 1)];
    for (r = 0; r < rows; r++)
        for (c = 0; c < rows; c++) {
            number *entry = &d.bounds[16 * r + c];
            *entry = cut(least(*entry, half_sum(unary[r], unary[c ^ 1])));
        }
    *o = d;
    return 1;
}

static int leq(const struct octagon *o, const struct octagon *p)
{
    unsigned r, c, rows = 2 * o->size;
    for (r = 0; r < rows; r++)
        for (c = 0; c < rows; c++)
            if (o->bounds[16 * r + c] > p->bounds[16 * r + c])
                return 0;
    return 1;
}

static int join(struct octagon *o, const struct octagon *p)
{
    unsigned r, c, rows = 2 * o->size;
    int grew = !leq(p, o);
    for (r = 0; r < rows; r++)
        for (c = 0; c < rows; c++)
            o->bounds[16 * r + c] = greatest(o->bounds[16 * r + c], p->bounds[16 * r + c]);
    return grew;
}

static number high(const struct octagon *o)
{
    number lo = greatest(-((number)1 << 63), -(o->bounds[1] >> 1));
    number hi = least(((number)1 << 64) - 1, o->bounds[16] >> 1);
    return lo <= hi ? hi : 0;
}

static void chain(struct octagon *o, unsigned size)
{
    unsigned x;
    top(o, size);
    o->bounds[16] = 20;
    o->bounds[1] = 0;
    for (x = 1; x < size; x++)
        tie(o, x, x - 1);
}

static number mixed(enum call call, const struct octagon *base)
{
    number mix = 0;
    struct octagon other = *base;
    unsigned round;
    for (round = 0; round < ROUNDS; round++) {
        struct octagon o = *base;
        int told;
        set_pair(&o, 1, 0, 20 + round % 16);
        told = call == CLOSE ? close(&o) : call == JOIN ? join(&o, &other) : high(&o) > 12;
        set_pair(&other, 1, 0, 20 + round / 16 % 16);
        mix += o.bounds[16] < UNBOUNDED ? o.bounds[16] : 0;
        mix += told ? 1 : 2;
    }
    return mix;
}

int main(void)
{
    static const struct { const char *name; enum call call; unsigned size; } lines[] = {
        { "close_2", CLOSE, 2 }, { "close_4", CLOSE, 4 }, { "close_8", CLOSE, 8 },
        { "join_8", JOIN, 8 }, { "project_8", PROJECT, 8 }
    };
    unsigned line;
    for (line = 0; line < sizeof lines / sizeof lines[0]; line++) {
        struct timespec start, end;
        struct octagon base;
        number mix;
        chain(&base, lines[line].size);
        clock_gettime(CLOCK_MONOTONIC, &start);
        mix = mixed(lines[line].call, &base);
        clock_gettime(CLOCK_MONOTONIC, &end);
        printf("%s %lld %lld\n", lines[line].name,
               ((end.tv_sec - start.tv_sec) * 1000000000LL + end.tv_nsec - start.tv_nsec) / 200, (long long)mix);
    }
    return 0;
}
