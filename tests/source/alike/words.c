/* _Bool, _Generic, static assertions and wide literals. */
int printf(const char *, ...);
typedef _Bool flag;
_Static_assert(sizeof(flag) == 1 && sizeof(L"ab") == 12, "sizes");
struct set { char c; _Bool a, b[3]; int n; _Static_assert(sizeof(int) == 4, "int"); };
static struct set first = { 'c', 4, { 3, 0, 256 }, 5 }, second = { .b = { [1] = 256 }, .a = 'x' };
static _Bool half = 0.5, none = 0.0, many[] = { 2, 0, [3] = -1 };
static const int *text = L"a\n\x3b1";
static int room[3] = L"xyz", open_[] = L"\xe9" "b", inside[2][3] = { L"p", { L"qr" } };

static flag is_even(_Bool unused, long n) { return !(n & 1) + unused; }
static _Bool low(long n) { return n; }
static int number(int n) { return n; }
static int text_of(const char *s) { return *s; }
#define SIGN(x) _Generic((x), int: number, char *: text_of, const char *: text_of)(x)
#define SIZE(x) _Generic((x), char: 1, short: 2, int: 4, long: 8, _Bool: 100, default: 0)

static int walk(const int *s) { int n = 0; while (*s) n = n * 31 + *s++; return n; }

/* Steps of a _Bool, with their values, of both numbers that it may hold. */
static int steps(int n)
{
    struct set s = { 0 }, *p = &s;
    int sum = 0, k;
#define STEP(step) p->b[k] = k; sum = 2 * sum + step; sum = 2 * sum + p->b[k];
    for (k = 0; k < 2; k++) {
        STEP(p->b[k]++) STEP(++p->b[k]) STEP(p->b[k]--) STEP(--p->b[k])
    }
    for (s.a = 0; n > 0; s.a--)
        n -= s.a + 1;
    return sum + n;
}

int main(void)
{
    _Static_assert(sizeof(struct set) == 12, "set");
    struct set *p = &first;
    _Bool b = p, c = 0, *q = &c;
    char letter = 2;
    printf("%d %d %d %d %d %d ", first.a, first.b[0], first.b[2], second.a, second.b[1], half + none);
    printf("%d %d %d %d ", (int)sizeof(many), many[0] + many[1] + many[3], b, *q);
    *q = 1L << 40;
    b ^= 3; p->b[1] = letter - 1; p->b[2] += -1; c &= 6;
    printf("%d %d %d %d %d ", b, c, p->b[1], p->b[2], is_even(256, 3));
    b |= 8; c = b && 2; c += b; b *= 0x100; b = b - 1 ? 7 : 9;
    printf("%d %d %d %d ", b, c, low(1L << 32), (_Bool)letter + (_Bool)0.25);
    int last = (flag)p->n << 3; last = L'z' - L'a'; last += SIGN(5) + SIZE(letter) + SIZE(b);
    printf("%d %d %d ", last, SIZE(+b), SIZE(1.5f));
    printf("%d %d %d %d ", walk(text), room[2], (int)sizeof(open_), open_[0] + open_[1]);
    switch (inside[1][1]) { case L'r': printf("%d", walk(L"\u00e9" "!") + inside[0][1]); }
    printf(" %d\n", _Generic(b ? 1 : 2L, long: 3, int: 4));
    printf("%d\n", steps(5));
    return 0;
}
