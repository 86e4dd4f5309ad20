#!/usr/bin/env bash
# Times `dependencies` and `solve_sparse` on random systems over intervals, each beside the one above, which is smaller, and prints a
# table. Usage: bench/sparse.sh. It builds in a folder of its own, and its first run proves the crates there. It is no test.
set -eu
top=$(cd "$(dirname "$0")/.." && pwd)
. "$top/bench/room.sh"
make_room sparse sp_lattice sp_interval sp_dense sp_deps sp_sparse

add_systems
mkdir -p "$folder/proofs/main"
cp "$top/bench/sparse/main.antt.in" "$folder/proofs/main/Invariants.antt"
(cd "$folder" && rt run -- blocks 1000) >"$room/built.txt"

line='%-7s %8s %13s %12s %12s %8s %12s %7s\n'
# shellcheck disable=SC2059
printf "$line" shape nodes dependencies "deps ms" "sparse ms" ratio evaluations B/node
measure() { # shape, nodes
    /usr/bin/time -f %M -o "$room/kib" "$folder/out/sparse_bench" "$1" "$2" >"$room/line"
    read -r nodes triples found solved evaluations <"$room/line"
    read -r kib <"$room/kib"
    time=$((found + solved))
    ratio=-
    [ -n "$last" ] && ratio=$(awk "BEGIN{printf \"%.2f\", ($time / $nodes) / $last}")
    last=$(awk "BEGIN{printf \"%.6f\", $time / $nodes}")
    # shellcheck disable=SC2059
    printf "$line" "$1" "$nodes" "$triples" $((found / 1000)) $((solved / 1000)) "$ratio" \
        "$(awk "BEGIN{printf \"%.2f/node\", $evaluations / $nodes}")" $((kib * 1024 / nodes))
}
for shape in blocks nest; do
    last=
    sizes='1000 10000 100000 500000'
    [ "$shape" = nest ] && sizes='5000 20000'
    for size in $sizes; do
        measure "$shape" "$size"
    done
done
