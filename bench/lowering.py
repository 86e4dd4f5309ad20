"""Times text_rows on large programs, each beside one of a tenth: bench/lowering.sh runs it."""
import sys

from rows import measured

MAIN = (1, "int main(void){return 0;}")

# The name of a program, its size, and its pieces for a size: how often each stands, and its text, in
# which % is how often it came before.
PROGRAMS = [
    ("statements", 400000, lambda n: [(1, "int main(void){int x;"), (n, "x++;"), (1, "return 0;}")]),
    ("arguments", 50000, lambda n: [(1, "int f();int main(void){return f(0"), (n - 1, ",%"), (1, ");}")]),
    ("calls", 50000, lambda n: [(1, "int g(void){return 1;}int f();int main(void){return f(0"), (n - 1, ",g()"), (1, ");}")]),
    ("cases", 50000, lambda n: [(1, "int main(void){int x;switch(x){"), (n, "case %:x=%;"), (1, "}return 0;}")]),
    ("members", 200000, lambda n: [(1, "struct s{"), (250, "int a%;"), (1, "};"), (n // 251, "struct s o%;"), MAIN]),
    ("labels", 100000, lambda n: [(1, "int main(void){"), (n, "l%:;"), (1, "return 0;}")]),
    ("gotos", 20000, lambda n: [(1, "int main(void){"), (n, "l%:goto l%;"), (1, "return 0;}")]),
    ("structs", 10000, lambda n: [(n, "struct s%{int x;};"), MAIN]),
    ("functions", 50000, lambda n: [(n, "int f%(void){return 0;}"), MAIN]),
    ("strings", 50000, lambda n: [(1, "int main(void){char*p;"), (n, 'p="ab%";'), (1, "return 0;}")]),
    ("initialiser", 200000, lambda n: [(1, "int a[]={"), (n, "%,"), (1, "0};"), MAIN]),
    ("objects", 150000, lambda n: [(n, "int a%;"), MAIN]),
    ("temporaries", 100000, lambda n: [(1, "int main(void){int x,y;"), (n, "y=x++;"), (1, "return 0;}")]),
    ("breaks", 100000, lambda n: [(1, "int main(void){int x;while(x){"), (n, "if(x)break;"), (1, "}return 0;}")]),
]


def row_of(pieces):
    """The row of these pieces."""
    return "built\t" + "\t".join(f"{count} {text}" for count, text in pieces)


def main():
    print(f"{'program':12}{'size':>8}{'s':>8}{'ratio':>7}{'KiB':>9}  lowering")
    for name, size, pieces in PROGRAMS:
        small, _, _ = measured(sys.argv[1], row_of(pieces(size // 10)))
        large, peak, answer = measured(sys.argv[1], row_of(pieces(size)))
        print(f"{name:12}{size:8}{large:8.2f}{large / max(small, 0.01):7.1f}{peak:9}  {answer}", flush=True)


main()
