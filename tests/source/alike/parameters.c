/* Old-style definitions, narrow parameters, calls before definitions, types left out. */
int printf(const char *, ...);
static total;

add(a, b, c)
    char a;
    unsigned short b;
    long long c;
{
    return a + b + c;
}

static long apply(f, list, count)
    int (*f)();
    int list[], count;
{
    long sum = 0;
    while (count--)
        sum = sum * 7 + (*f)(list[count], count, 3LL);
    return sum;
}

int first()
{
    note(5);
    return total;
}

void note(n)
{
    total += n;
    if (n)
        note(n - 1);
}

int main()
{
    int list[4] = { 200, -3, 70000, 1 };
    printf("%ld %d", apply(add, list, 4), first());
    printf(" %d %d\n", total, add(300, 70000, 1LL << 33));
    return 0;
}
