#!/usr/bin/env bash
# How often the sparse engine evaluates nodes by each order of service, on generated C and on programs whose prepared texts stand in folders.
# Usage: bench/order.sh [FOLDER..], folders that `source --keep FOLDER` wrote. It builds in a folder of its own, and its first run proves the
# crates there. It is no test.
set -eu
top=$(cd "$(dirname "$0")/.." && pwd)
. "$top/bench/room.sh"
make_room order sp_defuse sp_front sp_sparse sp_run_faults
folder=$room/crates/order_bench
from=$top/crates/rows_run
cp "$from"/src/{faults,fields,lowerings}.rt "$folder/src/"
mkdir -p "$folder/proofs/main"
cp -R "$from/proofs/lowerings" "$folder/proofs/"
cp "$top/bench/order/main.antt.in" "$folder/proofs/main/Invariants.antt"
grep -rlF rows_run "$folder/src" "$folder/proofs" | xargs -r sed -i 's/rows_run/order_bench/g'
[ -n "${SPARROW_BUILT-}" ] || (cd "$folder" && rt run </dev/null) >"$room/built.txt"
python3 "$top/bench/order.py" "${SPARROW_BUILT:-$folder/out/order_bench}" "$@"
