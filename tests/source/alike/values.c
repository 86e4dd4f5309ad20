/* Designated initialisers, compound literals, members without a name. */
int printf(const char *, ...);
struct point { int x, y; };
struct shape {
    int kind;
    union {
        struct point corner[2];
        struct { long radius; struct point middle; };
    };
    const char *name;
};
static struct shape shapes[] = {
    [2] = { .kind = 1, .name = "two", .corner[1].y = 4 },
    [0] = { 3, .corner = { { 1, 2 }, { .y = 5 } }, "none" },
    { .name = "one" },
};
static int table[10] = { [7] = 1, 2, [1 ... 3] = 9, [0] = 5 };
static struct point *origin = &(struct point){ .y = 8 };

static int sum(struct point p) { return p.x * 10 + p.y; }
static int total(const int *list, int count) { return count ? *list + total(list + 1, count - 1) : 0; }

int main(void)
{
    for (unsigned i = 0; i < sizeof shapes / sizeof *shapes; i++) {
        struct shape *s = &shapes[i];
        printf("%d %d %d %s ", s->kind, s->corner[1].y, s->corner[0].x, s->name ? s->name : "-");
    }
    struct shape round = { .kind = 4 };
    round.radius = 1L << 40;
    round.middle = (struct point){ .y = 6, .x = 2 };
    for (int i = 0; i < 3; i++) {
        struct point *p = &(struct point){ i };
        p->y += i;
        printf("%d ", sum(*p) + sum((struct point){ i, 1 }));
    }
    printf("%ld %d %d %d ", round.radius, round.middle.x, sum(round.middle), origin->y);
    printf("%d %d\n", total(table, 10), total((int[]){ 1, 2, 3 }, 3));
    return 0;
}
