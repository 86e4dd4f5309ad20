#!/usr/bin/env bash
# Seconds and peak memory of text_rows from a text to its points-to and supergraph, on large
# programs, each beside one of a tenth. Usage: bench/graph.sh. It builds in a folder of its own, and
# its first run proves the crates there.
set -eu
top=$(cd "$(dirname "$0")/.." && pwd)
# shellcheck source=bench/texts.sh
. "$top/bench/texts.sh"
python3 "$top/bench/graph.py" "$text_rows"
