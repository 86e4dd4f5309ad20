#!/usr/bin/env bash
# Runs the program on each text of tests/cases/ and each program of tests/programs/ under both
# commands, and compares what it writes and its status. tests/cases/README.md tells the formats.
. "$(dirname "$0")/lib.sh"
program=$(./sparrow --program) || exit 1
room=$(mktemp -d)
trap 'rm -rf "$room"' EXIT

names=(a.c b.c c.c)

in_room() { (cd "$room" && "$program" "$@"); }

for file in tests/cases/*.tsv; do
    flags=()
    case $file in */sharp.tsv) flags=(--sharp) ;; esac
    while IFS=$'\t' read -r name status text answer || [ -n "$name" ]; do
        # The text may be empty, which read would take for no field.
        [ "$text" != '(empty)' ] || text=
        printf '%b' "$text" >"$room/a.c"
        for command in analyse dense; do
            check "$file, $name, $command" "$status" "${answer//|/$'\n'}"$'\n' \
                in_room "$command" "${flags[@]}" a.c
        done
    done <"$file"
done

for file in tests/programs/*.tsv; do
    flags=() commands=(analyse dense)
    case $file in
        */values.tsv) flags=(--values) ;;
        */nodes.tsv) flags=(--nodes) ;;
        */calls.tsv) commands=(calls) ;;
    esac
    while IFS=$'\t' read -r -a fields || [ ${#fields[@]} -gt 0 ]; do
        texts=("${fields[@]:2:${#fields[@]}-3}")
        files=()
        for place in "${!texts[@]}"; do
            [ "${texts[place]}" != '(none)' ] || continue
            written=${names[place]}
            printf '%b' "${texts[place]}" >"$room/$written"
            files+=("$written")
        done
        for command in "${commands[@]}"; do
            check "$file, ${fields[0]}, $command" "${fields[1]}" "${fields[-1]//|/$'\n'}"$'\n' \
                in_room "$command" "${flags[@]}" "${files[@]}"
        done
    done <"$file"
done
finish
