#!/usr/bin/env bash
# Nanoseconds for one call of each operation on intervals: the proved crate beside the same loop in C.
# Usage: bench/interval.sh. It builds in a folder of its own, and its first run proves the crates there.
set -eu
top=$(cd "$(dirname "$0")/.." && pwd)
. "$top/bench/room.sh"
make_room interval sp_lattice sp_interval
beside_c
