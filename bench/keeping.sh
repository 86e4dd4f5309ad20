#!/usr/bin/env bash
# Times both forms in which the dependencies of a system are kept, the sorted list and the diagram, and the one that `dependencies` picks.
# Usage: bench/keeping.sh. It builds in a folder of its own, and its first run proves the crates there. It is no test.
set -eu
top=$(cd "$(dirname "$0")/.." && pwd)
. "$top/bench/room.sh"
make_room keeping sp_lattice sp_interval sp_engine_keeping sp_deps
add_systems
# What shows that triples are in order stands in the program of rows.
from=$top/crates/rows_domain
cp "$from/src/triples.rt" "$folder/src/"
cp -R "$from/proofs/triples" "$from/proofs/Ordered.antt" "$folder/proofs/"
echo 'pub mod Ordered' >>"$folder/proofs/Lib.antt"
sed -i 's/rows_domain/keeping_bench/g' "$folder/src/triples.rt"
grep -rlF rows_domain "$folder/proofs" | xargs sed -i 's/rows_domain/keeping_bench/g'
[ -n "${SPARROW_BUILT-}" ] || (cd "$folder" && rt run -- blocks 1000 picked) >"$room/built.txt"
program=${SPARROW_BUILT:-$folder/out/keeping_bench}

line='%-7s %7s %12s %-8s %9s %9s %9s %9s %9s %8s\n'
# shellcheck disable=SC2059
printf "$line" shape nodes dependencies form size 'made ms' 'after ms' 'asked ms' bytes KiB
measure() { # shape, nodes, form
    /usr/bin/time -f %M -o "$room/kib" "$program" "$1" "$2" "$3" >"$room/lines"
    { read -r nodes triples _ _ && read -r size made after asked _ _; } <"$room/lines"
    read -r kib <"$room/kib"
    # A pair of a list has 8 bytes, and each row a start of 8; a node of a diagram has 24 with its place in the table.
    bytes=$((size > 0 ? 24 * size : 8 * (triples + nodes)))
    # shellcheck disable=SC2059
    printf "$line" "$1" "$nodes" "$triples" "$3" "$size" $((made / 1000)) $((after / 1000)) $((asked / 1000)) \
        "$(awk "BEGIN{printf \"%.2f\", $bytes / $triples}")" "$kib"
}
for count in 10000 100000; do
    for form in list diagram picked; do measure blocks $count $form; done
done
for count in 200 1000; do
    for form in list diagram picked; do measure dense $count $form; done
done
