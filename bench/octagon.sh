#!/usr/bin/env bash
# Nanoseconds for one call on octagons, with a copy of the octagon before it: the proved crate beside the same loop in C.
# Usage: bench/octagon.sh. It builds in a folder of its own, and its first run proves the crates there.
set -eu
top=$(cd "$(dirname "$0")/.." && pwd)
. "$top/bench/room.sh"
make_room octagon sp_lattice sp_interval sp_octagon
beside_c
