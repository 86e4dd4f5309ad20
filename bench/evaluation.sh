#!/usr/bin/env bash
# Nanoseconds for one call of `evaluate`: on a variable, and on `p[i]` where `p` has 1 to 100,000 targets, with the
# nanoseconds a target. Usage: bench/evaluation.sh. It builds in a folder of its own, and its first run proves the crates there.
set -eu
top=$(cd "$(dirname "$0")/.." && pwd)
. "$top/bench/room.sh"
make_room evaluation sp_tree sp_types sp_lattice sp_interval sp_ir sp_value sp_eval
folder=$room/crates/evaluation_bench
mkdir -p "$folder/proofs/rise"
cat > "$folder/proofs/rise/Invariants.antt" <<'ANTT'
use Rattle.std.proofs.Common.{ℕ, ◌<◌, ◌+◌, get_or}
use Rattle.evaluation_bench.proofs.rise.Given as goal

abbrev pub invariant-loop-place : goal.invariant-loop-place
invariant-loop-place l = (k : ℕ) → k + 1 < l.place → get_or l.cells k 0 < get_or l.cells (k + 1) 0
ANTT
(cd "$folder" && rt run -- 0 1) > "$room/built.txt"
printf '%-9s %10s %12s %12s\n' targets calls "ns a call" "ns a target"
for row in "0 2000000" "1 1000000" "100 20000" "10000 200" "100000 20"; do
    # shellcheck disable=SC2086
    "$folder/out/evaluation_bench" $row | awk -v calls="${row#* }" '{
        printf "%-9s %10d %12.1f %12s\n", $1 == 0 ? "variable" : $1, calls, $3 / calls, $1 == 0 ? "-" : sprintf("%.1f", $3 / calls / $1) }'
done
