#!/usr/bin/env bash
# Megabytes a second of the scanner on ordinary code and on its worst kinds, each beside a text of half the size, and the peak memory.
# Usage: bench/scan.sh. It builds in a folder of its own, and its first run proves the crates there.
set -eu
top=$(cd "$(dirname "$0")/.." && pwd)
. "$top/bench/room.sh"
make_room scan sp_tree sp_lexer
(cd "$room/crates/scan_bench" && rt run) > "$room/built.txt"
mkdir -p "$room/texts"
python3 "$top/bench/scan_texts.py" "$room/texts"
printf '%-10s %10s %9s %8s %8s %9s %7s\n' text bytes tokens ms MB/s KiB ratio
for kind in ordinary comment blanks newlines marks string names; do
    last=
    for size in 8 16; do
        time_row "$kind" "$room/texts/$kind-$size"
    done
done
