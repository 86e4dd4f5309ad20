#!/usr/bin/env bash
# Milliseconds of scanning, parsing, checking and linking large units, each kind beside one of a
# tenth, and the peak memory of the whole run. Usage: bench/checks.sh. It builds in a folder of its
# own, and its first run proves the crates there.
set -eu
top=$(cd "$(dirname "$0")/.." && pwd)
. "$top/bench/room.sh"
make_room checks sp_lexer sp_decl_parser sp_decl_check sp_link_units
"$top/tools/takekept" "$room" > "$room/taken.txt" || true
python3 "$top/bench/checks_texts.py" "$room/texts"
(cd "$room/crates/checks_bench" && rt run -- "$room"/texts/calls-10000/*.c) > "$room/built.txt"
printf '%-20s %9s %8s %8s %8s %8s %8s %9s\n' text tokens entries scan parse check link KiB
for folder in "$room"/texts/*; do
    /usr/bin/time -f '%M' -o "$room/peak" "$room/crates/checks_bench/out/checks_bench" "$folder"/*.c > "$room/run"
    read -r tokens entries scanning parsing checking linking < "$room/run"
    awk -v kind="$(basename "$folder")" -v t="$tokens" -v e="$entries" -v s="$scanning" -v p="$parsing" -v c="$checking" -v l="$linking" -v k="$(cat "$room/peak")" \
        'BEGIN { printf "%-20s %9d %8d %8.1f %8.1f %8.1f %8.1f %9d\n", kind, t, e, s / 1000, p / 1000, c / 1000, l / 1000, k }'
done
