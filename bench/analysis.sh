#!/usr/bin/env bash
# Seconds and peak memory of the program on generated C, by both engines, each beside the row above,
# and of gcc and frama-c on the same texts where they are installed.
# Usage: bench/analysis.sh [FUNCTIONS..]
set -eu
top=$(cd "$(dirname "$0")/.." && pwd)
program=$("$top/sparrow" --program)
python3 "$top/bench/analysis.py" "$program" "${@:-}"
