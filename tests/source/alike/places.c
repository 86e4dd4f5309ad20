/* Declarations among statements and in for, labels, ranges, names, conditions. */
int printf(const char *, ...);
typedef int count;

static int steps(int count)
{
    int made = 0;
    made++;
    int limit = count * 2;
    for (int i = 0, j = limit; i < j; i++, j--) {
        made += i;
        for (unsigned i = 0; i < 3; i++)
            made += i;
    }
    switch (made) {
        int unused;
    case 0 ... 40:
        made = -made;
    case 41:
        break;
    case 'a' ... 'z':
        made += 1000;
    default:
    }
    if (made < 0) for (int k = made; k < 0; k += 3) { made++; int before = made; made = before + 1; }
    goto end;
    made = 0;
end:
    return made ?: count ?: 7;
end_of_all:
}

int main(void)
{
    typedef unsigned char byte;
    typedef struct { byte low, high; } pair;
    for (count n = 0; n < 12; n++)
        printf("%s %d ", __func__, steps(n));
    byte all = 255;
    all++;
    pair both = { all, 3 };
    printf("%d %d %lu\n", all, both.high, (unsigned long)sizeof both);
    return 0;
}
