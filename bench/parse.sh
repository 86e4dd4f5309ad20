#!/usr/bin/env bash
# Tokens a second of the parsers of units, expressions, specifiers and declarators, on ordinary code, mixed expressions and the worst kinds, each
# beside a text of half the size, and the peak memory. Usage: bench/parse.sh. It builds in a folder of its own, and its first run proves the crates there.
set -eu
top=$(cd "$(dirname "$0")/.." && pwd)
. "$top/bench/room.sh"
make_room parse sp_lexer sp_expr_parser sp_decl_parser
mkdir -p "$room/texts"
python3 "$top/bench/parse_texts.py" "$room/texts"
(cd "$room/crates/parse_bench" && rt run -- "$room/texts/parens-1-expression" expression) > "$room/built.txt"
printf '%-10s %10s %9s %8s %8s %9s %7s\n' text tokens trees ms M/s KiB ratio
for kind in ordinary wide elses blocks inits declarators mixed parens minus and comma assign choice prefix cast index calls strings members constants pointers parameters; do
    last=
    for size in 1 2; do
        text=$(echo "$room/texts/$kind-$size"-*)
        time_row "$kind" "$text" "${text##*-}"
    done
done
