# shellcheck shell=bash
# Sourced by graph.sh and lowering.sh, which set `top`: builds text_rows in a folder of its own, and
# sets `text_rows` to the program. A row of it is a call and the texts of a program; its head tells
# the calls. What earlier runs proved in the folder stays.
# shellcheck disable=SC2154
. "$top/bench/room.sh"
room=${SPARROW_BENCH:-${TMPDIR:-/tmp}/sparrow-bench-texts}
mkdir -p "$room/crates"
for crate in "$top"/crates/sp_* "$top"/bench/texts/*/; do
    name=$(basename "$crate")
    mkdir -p "$room/crates/$name"
    for part in src specs proofs; do
        rm -rf "$room/crates/$name/$part"
        [ ! -d "$crate/$part" ] || cp -R "$crate/$part" "$room/crates/$name/$part"
    done
done
without_in "$room"/crates/*_rows "$room"/crates/row_*
{ grep '^sp_' "$top/crates.txt"; cat "$top/bench/texts/crates.in"; } >"$room/crates.txt"
[ -d "$room/.git" ] || git init -q "$room"
(cd "$room/crates/text_rows" && rt run </dev/null >/dev/null)
# shellcheck disable=SC2034
text_rows=$room/crates/text_rows/out/text_rows
