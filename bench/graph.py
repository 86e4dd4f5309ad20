"""Times text_rows on large programs, each beside one of a tenth: bench/graph.sh runs it."""
import random
import sys

from rows import measured


def chain(n):
    """So many pointers, each assigned the one before it."""
    return f"int a;{''.join(f'int*p{k};' for k in range(n))}int main(void){{p0=&a;{''.join(f'p{k}=p{k - 1};' for k in range(1, n))}return 0;}}"


def ring(n):
    """The same, and the first the last."""
    return chain(n).replace("return 0;", f"p0=p{n - 1};return 0;")


def table(n):
    """A table of so many functions, called through a pointer in a loop."""
    functions = "".join(f"int f{k}(int x){{return x;}}" for k in range(n))
    names = ",".join(f"f{k}" for k in range(n))
    return f"{functions}int(*t[])(int)={{{names}}};int main(void){{int i;for(i=0;i<{n};i++)t[i](i);return 0;}}"


def members(n):
    """So many regions, of structs of 250 members."""
    each = "".join(f"int a{k};" for k in range(250))
    return f"struct s{{{each}}};{''.join(f'struct s o{k};' for k in range(n // 251))}int main(void){{return 0;}}"


def stores(n):
    """So many assignments through a pointer with 100 targets."""
    objects = "".join(f"int a{k};" for k in range(100))
    taken = "".join(f"p=&a{k};" for k in range(100))
    return f"{objects}int*p;int main(void){{{taken}{'*p=1;' * n}return 0;}}"


def calls(n):
    """So many functions that call each other at random."""
    rng = random.Random(1)
    heads = "".join(f"int f{k}(int x);" for k in range(n))
    bodies = "".join(f"int f{k}(int x){{if(x)return f{rng.randrange(n)}(x-1);return f{rng.randrange(n)}(0);}}" for k in range(n))
    return f"{heads}{bodies}int main(void){{return f0(3);}}"


KINDS = [(chain, 10000), (ring, 10000), (table, 1000), (members, 200000), (stores, 100000), (calls, 10000)]


def main():
    print(f"{'program':10}{'size':>8}{'s':>8}{'ratio':>7}{'KiB':>9}  answer")
    for kind, size in KINDS:
        small, _, _ = measured(sys.argv[1], "graph\t" + kind(size // 10))
        large, peak, answer = measured(sys.argv[1], "graph\t" + kind(size))
        print(f"{kind.__name__:10}{size:8}{large:8.2f}{large / max(small, 0.01):7.1f}{peak:9}  {answer if len(answer) < 40 else str(len(answer)) + ' bytes'}", flush=True)


main()
