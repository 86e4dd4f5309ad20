# Sourced by the benches, which set `top`: makes a folder of its own for a bench's program.
# make_room NAME CRATE..: copies these crates of ours with all that they stand on, and
# bench/NAME/main.rt.in as the crate NAME_bench, and sets `room`. What earlier runs proved there stays.
make_room() {
    bench=$1
    shift
    room=${SPARROW_BENCH:-${TMPDIR:-/tmp}/sparrow-bench-$bench}
    mkdir -p "$room/crates/${bench}_bench/src"
    "$top/tools/needed" "$@" > "$room/crates.txt"
    crates=$(cut -d : -f 1 "$room/crates.txt" | tr '\n' ' ')
    for crate in $crates; do
        mkdir -p "$room/crates/$crate"
        for part in src specs proofs; do
            rm -rf "$room/crates/$crate/$part"
            if [ -d "$top/crates/$crate/$part" ]; then
                cp -R "$top/crates/$crate/$part" "$room/crates/$crate/$part"
            fi
        done
    done
    printf '%s_bench: %sanyhow\n' "$bench" "$crates" >> "$room/crates.txt"
    cp "$top/bench/$bench/main.rt.in" "$room/crates/${bench}_bench/src/main.rt"
    [ -d "$room/.git" ] || git init -q "$room"
}

# beside_c: runs the program in the room and bench/NAME/loop.c, each of which prints a call, its picoseconds and what came of it on a line, and prints both
# side by side. It stops where they differ.
beside_c() {
    cc -O2 -o "$room/loop" "$top/bench/$bench/loop.c"
    (cd "$room/crates/${bench}_bench" && rt run) > "$room/proved.txt"
    "$room/loop" > "$room/c.txt"
    printf '%-9s %10s %10s %8s\n' call proved C ratio
    paste -d ' ' "$room/proved.txt" "$room/c.txt" |
        awk '$1 != $4 || $3 != $6 { print "the two differ at " $1; exit 1 }
             { printf "%-9s %7.1f ns %7.1f ns %8.2f\n", $1, $2 / 1000, $5 / 1000, $2 / $5 }'
}

# time_row KIND WORD..: runs the program in the room on the words, which prints two counts and its microseconds, and prints a row: the kind, the counts, milliseconds, how many of the first
# count a microsecond, the peak memory, and the time against that of the row before, if `last` isn't empty.
time_row() {
    kind=$1
    shift
    /usr/bin/time -f '%M' -o "$room/peak" "$room/crates/${bench}_bench/out/${bench}_bench" "$@" > "$room/run"
    read -r first second micros < "$room/run"
    awk -v kind="$kind" -v first="$first" -v second="$second" -v micros="$micros" -v last="$last" -v peak="$(cat "$room/peak")" 'BEGIN {
        ratio = last == "" ? "-" : sprintf("%.2f", micros / last)
        printf "%-10s %10d %9d %8.1f %8.2f %9d %7s\n", kind, first, second, micros / 1000, first / micros, peak, ratio }'
    last=$micros
}

# replace FILE OLD NEW: puts NEW in place of the line OLD, and stops where the file has no such line.
replace() {
    grep -qxF -- "$2" "$1" || { echo "$1 has no line: $2" >&2; exit 1; }
    OLD=$2 NEW=$3 awk '$0 == ENVIRON["OLD"] { print ENVIRON["NEW"]; next } { print }' "$1" > "$1.new"
    mv "$1.new" "$1"
}

# without_in FOLDER..: takes the `.in` away behind the names of files.
without_in() {
    find "$@" -name '*.in' | while read -r file; do mv "$file" "${file%.in}"; done
}

# add_systems: puts the systems over intervals of bench/sparse/systems, with their definitions and proofs, into the program in the room.
add_systems() {
    folder=$room/crates/${bench}_bench
    rm -rf "$folder/proofs" "$folder/specs"
    cp -R "$top/bench/sparse/systems/proofs" "$top/bench/sparse/systems/specs" "$folder/"
    cp "$top"/bench/sparse/systems/*.rt.in "$folder/src/"
    without_in "$folder"
    grep -rlF sparse_bench "$folder/src" "$folder/proofs" "$folder/specs" | xargs sed -i "s/sparse_bench/${bench}_bench/g"
}
