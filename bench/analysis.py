"""Times the built program on generated C, beside compilers and another analyser: bench/analysis.sh runs it."""
import os
import random
import shutil
import subprocess
import sys
import tempfile
import time
from typing import Callable, NamedTuple

LIMIT = 600  # seconds
NODES = 71  # of a function of a module: 6,400 of them stay below 500,000 nodes and 2,000,000 tokens
MODULE = 40  # functions
HELPERS = 8  # functions that all modules call
SITES = 50  # calls of malloc in a function of `allocations`
ALLOCATING = 206  # nodes of such a function
OBJECTS = 64  # to which the pointers of `targets` may point
HANDING = 19  # nodes of a function of `targets`


def blocks(chance, cells, count):
    """Three blocks of a function: conditions, and writes through a pointer and to cells of an array."""
    return "".join(
        f"x=y+{chance.randrange(100)};if(x>n)y=x;else y=n;*p=y;{cells}[x&15]=y;"
        f"{cells}[{chance.randrange(count)}]=*p;local+=x;x++;y--;i++;local++;x--;y++;i--;local--;"
        for _ in range(3))


def module(chance, number, functions):
    """The lines of a module of so many functions. They call each other as a tree, and hand on the address
    of a local variable, and what they were handed. Each fourth calls a helper."""
    lines = [f"int c{number}[16];int s{number};"]
    lines += [f"int f{number}_{k}(int n,int *p);" for k in range(functions)]
    for k in range(functions):
        calls = [f"y=f{number}_{2 * k + 1}(x,&local);" if 2 * k + 1 < functions else "",
                 f"x=f{number}_{2 * k + 2}(y,p);" if 2 * k + 2 < functions else "",
                 f"y=h{chance.randrange(HELPERS)}(x);" if k % 4 == 0 else ""]
        lines.append(
            f"int f{number}_{k}(int n,int *p){{int x;int y;int local;int i;x=s{number};y=n;local=0;"
            f"for(i=0;i<16;i++)c{number}[i]=i;{blocks(chance, f'c{number}', 16)}"
            f"if(mode<x)s{number}=x;{''.join(calls)}return x/(y+1);}}")
    return lines


def modules(functions):
    """A program of so many functions in modules, the same each time."""
    chance = random.Random(functions)
    lines = ["int mode;int total;"]
    lines += [f"int h{k}(int n){{int x;x=n+{k};if(x>mode)total=x;else x=mode;return x;}}" for k in range(HELPERS)]
    count = -(-functions // MODULE)
    for number in range(count):
        lines += module(chance, number, min(MODULE, functions - number * MODULE))
    calls = "".join(f"total+=f{number}_0({number},&a);" for number in range(count))
    lines.append(f"int main(void){{int a;a=0;mode=3;{calls}return total;}}")
    return "\n".join(lines) + "\n"


def deep(functions):
    """A program of so many functions, the same each time, in which calls lead from each to nearly all later
    ones: each calls two of the next 40. Not all are reached."""
    chance = random.Random(functions)
    shared = max(4, functions // 10)
    lines = [f"int g[{shared}];int table[64];"]
    lines += [f"int f{k}(int n,int *p);" for k in range(functions)]
    for k in range(functions):
        later = range(k + 1, min(functions, k + 40))
        calls = [f"y=f{chance.choice(later)}(x,&local);" for _ in range(2)] if later else []
        body = "".join(
            f"x=y+{chance.randrange(100)};if(x>n)y=x;else y=n;*p=y;table[x&63]=y;"
            f"g[{chance.randrange(shared)}]=*p;local+=x;x++;y--;i++;local++;x--;y++;i--;local--;"
            for _ in range(3))
        lines.append(f"int f{k}(int n,int *p){{int x;int y;int local;int i;x=0;y=n;local=0;"
                     f"for(i=0;i<64;i++)table[i]=i;{body}{''.join(calls)}return x/(y+1);}}")
    lines.append("int main(void){int a;a=0;return f0(3,&a);}")
    return "\n".join(lines) + "\n"


def allocations(functions):
    """A program of so many functions that each allocate blocks and copy each to the next by memcpy."""
    lines = ["void *malloc(unsigned long);void *memcpy(void *,const void *,unsigned long);"]
    for k in range(functions):
        blocks = "".join(f"int *p{i};" for i in range(SITES))
        blocks += "".join(f"p{i}=(int *)malloc(16);p{i}[0]=n;" for i in range(SITES))
        blocks += "".join(f"memcpy(p{i},p{i - 1},16);" for i in range(1, SITES))
        lines.append(f"static int f{k}(int n){{{blocks}return p{SITES - 1}[1];}}")
    calls = "".join(f"s=s+f{k}(c);" for k in range(functions))
    lines.append(f"int main(int c,char **v){{int s;s=0;{calls}return s;}}")
    return "\n".join(lines) + "\n"


def targets(functions):
    """A program of so many functions that hand on a pointer, which may point to each of 64 objects: so all
    of them keep long lists of targets, and the last one calls the first."""
    lines = [f"int o{k};" for k in range(OBJECTS)] + ["int mode;int *g;int *h;"]
    lines += [f"int *f{k}(int *p);" for k in range(functions)]
    for k in range(functions):
        lines.append(f"int *f{k}(int *p){{int *q;q=p;if(mode=={k})q=&o{k % OBJECTS};if(mode>{k})g=q;else q=g;"
                     f"*q={k};h=q;if(mode<{k})return h;q=f{(k + 1) % functions}(q);*h=*q;return g;}}")
    lines.append("int main(int c,char **v){mode=c;g=&o0;h=f0(g);return *h;}")
    return "\n".join(lines) + "\n"


def chain(nodes):
    """A straight line of so many assignments to 64 scalars."""
    line = "".join(f"x{(k + 1) % 64}=x{k % 64};" for k in range(nodes))
    return "int main(void){" + "".join(f"int x{k};" for k in range(64)) + line + "return 0;}"


def ring(nodes):
    """One loop in which the first scalar climbs to 10, with so many copies of it to the others."""
    copies = "".join(f"x{1 + k % 63}=x0;" for k in range(nodes))
    declared = "".join(f"int x{k};" for k in range(64))
    return f"int main(void){{{declared}x0=0;while(x0<10){{x0=x0+1;{copies}}}return 0;}}"


def measured(words):
    """Seconds, peak KiB, and the last line of what is written; None where it takes too long."""
    start = time.time()
    try:
        done = subprocess.run(
            ["/usr/bin/time", "-f", "%M", *words], capture_output=True, text=True, timeout=LIMIT)
    except subprocess.TimeoutExpired:
        return None
    last = done.stdout.strip().split("\n")[-1]
    return time.time() - start, int(done.stderr.split()[-1]), last[-40:]


class Shape(NamedTuple):
    """How a program of a size is made, and how many nodes it has for each of its size."""

    name: str
    made: Callable[[int], str]
    nodes: int = 1


def table(command, shape, sizes, words, source):
    """Prints a row for each size: what a node takes, and the ratio of its time to that of the row above."""
    print(f"{command:9}{shape.name:>12}{'nodes':>9}{'s':>9}{'KiB':>10}{'us/node':>9}{'KiB/node':>10}{'ratio':>7}  last line")
    last = None
    for size in sizes:
        with open(source, "w", encoding="ascii") as out:
            out.write(shape.made(size))
        found = measured([*words, source])
        count = size * shape.nodes
        if found is None:
            print(f"{'':9}{size:12}{count:9}{'> ' + str(LIMIT):>9}", flush=True)
            break
        seconds, peak, line = found
        ratio = "-" if last is None else f"{seconds / count / last:.2f}"
        last = max(seconds, 0.001) / count
        print(f"{'':9}{size:12}{count:9}{seconds:9.2f}{peak:10}{1e6 * seconds / count:9.2f}{peak / count:10.2f}"
              f"{ratio:>7}  {line}", flush=True)


def main():
    sparrow, sizes = sys.argv[1], [int(it) for it in sys.argv[2:] if it] or [100, 400, 1600, 6400]
    with tempfile.TemporaryDirectory() as room:
        source = os.path.join(room, "a.c")
        for command in ("analyse", "dense"):
            # dense takes 1,048,576 slots, nodes times locations
            some = sizes if command == "analyse" else [25]
            table(command, Shape("modules", modules, NODES), some, [sparrow, command], source)
        # of the functions of a deep program eight in ten are reached where there are many
        table("analyse", Shape("deep", deep), sizes, [sparrow, "analyse"], source)
        table("analyse", Shape("allocations", allocations, ALLOCATING), [10, 100], [sparrow, "analyse"], source)
        table("analyse", Shape("targets", targets, HANDING), [100, 300], [sparrow, "analyse"], source)
        others = {"gcc": ["-O2", "-Wall", "-c", "-o", os.devnull], "frama-c": ["-eva", "-eva-verbose", "0"]}
        for name, flags in others.items():
            if shutil.which(name):
                table(name, Shape("modules", modules, NODES), sizes, [name, *flags], source)
            else:
                print(f"{name}: not installed")
        for made in (chain, ring):
            table("dense", Shape(made.__name__, made), [4000, 8000, 16100], [sparrow, "dense"], source)


if __name__ == "__main__":
    main()
