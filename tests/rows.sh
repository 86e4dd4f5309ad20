#!/usr/bin/env bash
# The rows of rows_domain are those that a script computes from the definitions, apart from the
# code. The values of both engines on generated programs are those that another script computes so.
# What is said of everyday idioms, right and wrong, is what docs/PRECISION.md tells.
. "$(dirname "$0")/lib.sh"

if python3 tests/rows_domain.py --check; then pass; else fail rows_domain 'other rows'; fi
program=$(./sparrow --program) || exit 1
if told=$(python3 tests/engines.py "$program"); then pass; else fail engines "$told"; fi
if told=$(python3 tests/idioms.py "$program"); then pass; else fail idioms "$told"; fi
finish
