#!/usr/bin/env bash
# Runs ./sparrow on each example and compares what it writes, and its status, with the file beside
# it: NAME.expected, whose first line is the status and the rest the bytes. NAME.nodes is the same
# for --nodes, NAME.sharp for --sharp, and NAME.calls for `calls`.
. "$(dirname "$0")/lib.sh"

# compare EXPECTED WORD..: runs ./sparrow on the words, and wants what the file tells.
compare() {
    local status bytes
    status=$(head -n 1 "$1")
    bytes=$(tail -n +2 "$1"; printf x)
    shift
    check "$*" "${status#status }" "${bytes%x}" ./sparrow "$@"
}

for source in examples/*.c; do
    for command in analyse dense; do
        compare "${source%.c}.expected" "$command" "$source"
    done
done
for expected in examples/*.nodes; do
    for command in analyse dense; do
        compare "$expected" "$command" --nodes "${expected%.nodes}.c"
    done
done
for expected in examples/*.sharp; do
    for command in analyse dense; do
        compare "$expected" "$command" --sharp "${expected%.sharp}.c"
    done
done
for expected in examples/*.calls; do
    compare "$expected" calls "${expected%.calls}.c"
done
finish
