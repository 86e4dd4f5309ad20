#!/usr/bin/env bash
# `make install` puts all there that Sparrow needs, so that anyone runs it from anywhere, and
# `make uninstall` takes it away. Then the manual page and the completion of words.
# shellcheck source=tests/lib.sh
. "$(dirname "$0")/lib.sh"
room=$(mktemp -d)
trap 'rm -rf "$room"' EXIT
chmod 755 "$room"
mkdir -m 755 "$room/sources"
cp examples/source/cut.c examples/overrun.c "$room/sources"

# Another user, where root runs the tests.
other() {
    if [ "$(id -u)" -eq 0 ]; then
        setpriv --reuid=65534 --regid=65534 --clear-groups env HOME=/proc/none "$@"
    else
        env "$@"
    fi
}
installed=$room/a\ place/bin/sparrow
elsewhere() { (cd "$room/sources" && other "$installed" "$@"); }
here() { (cd "$room/sources" && "$top/sparrow" "$@"); }
make_quietly() { make -s "$@" PREFIX="$room/a place" >/dev/null; }

# What is there before stays, but for what is Sparrow's.
mkdir -p "$room/a place/share/sparrow"
touch "$room/a place/share/sparrow/of_another_release" "$room/a place/share/other"
install_for_root() { (umask 077 && make_quietly install); }
check 'install' 0 '' install_for_root
chmod a+rX "$room/a place" "$room/a place/share"
check 'the folders' 0 $'bin\nlib\nshare\n' ls "$room/a place"
check 'no file of another release' 1 '' test -e "$room/a place/share/sparrow/of_another_release"
for words in 'analyse overrun.c' 'analyse --values overrun.c' 'dense none.c' ''; do
    # shellcheck disable=SC2086
    want=$(here $words 2>&1; printf 'status %s' $?)
    # shellcheck disable=SC2086
    got=$(elsewhere $words 2>&1; printf 'status %s' $?)
    if [ "$got" = "$want" ]; then pass; else fail "the report of: $words" "$got"; fi
done
if command -v gcc >/dev/null 2>&1; then
    report=$(tail -n +2 examples/source/cut.expected | sed 's,^examples/source/,,')
    check 'source' 1 "$report"$'\n' elsewhere source --format=plain cut.c
    said() { elsewhere source cut.c 2>&1 >/dev/null | cat; }
    check 'source on standard error' 0 '' said
fi
check 'its version' 0 "$(./sparrow --version)"$'\n' elsewhere --version
check 'where its program is' 0 "$room/a place/lib/sparrow/sparrow"$'\n' elsewhere --program
ln -s "$installed" "$room/link"
check 'by a link' 3 $'usage: sparrow COMMAND [OPTION] WORD..\n' "$room/link"
check 'the documents' 0 \
    $'LANGUAGE.md\nLICENSE\nREADME.md\nREAL_CODE.md\nREPORT.md\nreport.schema.json\n' \
    ls "$room/a place/share/doc/sparrow"
links() { # of the documents: FILE TARGET
    cd "$room/a place/share/doc/sparrow" || return
    grep -o ']([^)]*)' ./*.md | sed 's,^\./\([^:]*\):](\([^)]*\))$,\1 \2,'
}
dead_links() {
    links | while read -r file target; do
        (cd "$room/a place/share/doc/sparrow" && [ -e "${target%%#*}" ]) ||
            case $target in '#'*) ;; *) echo "$file $target" ;; esac
        [ "${target%#*}" = "$target" ] || dead_part "${target#*#}" "${target%%#*}" "$file"
    done
}
dead_part() { # PART OF IN: the head of a document that a link tells, in lower case with - for blanks
    (cd "$room/a place/share/doc/sparrow" && sed -n 's/^##* //p' "${2:-$3}") |
        tr 'A-Z ' 'a-z-' | tr -d '`,.' | grep -qxF -- "$1" || echo "$3 $2#$1"
}
check 'links lead somewhere' 0 '' dead_links
check 'there are links' 0 '' eval '[ "$(links | wc -l)" -gt 10 ]'
check 'another reads them' 0 '' eval 'other cat "$room/a place/share/doc/sparrow"/* >/dev/null'

check 'uninstall' 0 '' make_quietly uninstall
check 'what is left' 0 "$room/a place/share/other"$'\n' find "$room/a place" -type f
check 'below another folder' 0 '' make_quietly install DESTDIR="$room/stage"
check 'nothing is beside it' 0 "$room/a place/share/other"$'\n' find "$room/a place" -type f
echo 'int main(void) { return 0; }' >"$room/main.c"
check 'it is there' 0 $'0 alarms\n' "$room/stage$room/a place/bin/sparrow" analyse "$room/main.c"
check 'uninstall there' 0 '' make_quietly uninstall DESTDIR="$room/stage"
check 'nothing is left there' 0 '' find "$room/stage" -type f

# The manual page tells of each command and option that the help tells of.
if command -v groff >/dev/null 2>&1; then
    check 'the manual page' 0 '' groff -ww -man -Tascii -z man/sparrow.1
    groff -man -Tascii -P-cbou man/sparrow.1 >"$room/page" 2>/dev/null
    for word in $(./sparrow --help | grep -oE '^  [a-z-]+|-(-[a-z]+|h)\b' | sort -u); do
        check "the manual page tells of $word" 0 '' \
            grep -qE -- "^ +$word|, $word|\| $word" "$room/page"
    done
fi

# Completion: the last of the words is the one to complete.
complete_words() { # WORD..
    # shellcheck source=completion/sparrow.bash
    (. completion/sparrow.bash && cd "$room/sources" &&
        COMP_WORDS=("$@") COMP_CWORD=$(($# - 1)) && _sparrow && printf '%s\n' "${COMPREPLY[@]}")
}
mkdir "$room/sources/part"
touch "$room/sources/notes.txt"
check 'the commands' 0 $'source\n' complete_words sparrow s
check 'a command' 0 $'calls\n' complete_words sparrow c
check 'the options of analyse' 0 $'--values\n--nodes\n--sharp\n' complete_words sparrow analyse -
options=$'--values\n--sharp\n--plain\n--strict\n--keep\n--compile-commands\n--target\n'
options+=$'--contexts=\n--no-contexts\n--no-models\n--format\n--output\n--progress\n--color\n--baseline\n--update-baseline\n--fail-on\n--why\n'
check 'the options of source' 0 "$options" complete_words sparrow source --
check 'the forms of a report' 0 $'sarif\n' complete_words sparrow source --format s
check 'a form behind a =' 0 $'sarif\n' complete_words sparrow source --format = sa
check 'what may be behind a =' 0 $'any\nnew\n' complete_words sparrow source --fail-on =
check 'no blank behind a =' 0 $'compopt -o nospace\n--contexts=\n' eval '
    compopt() { echo "compopt $*"; }
    complete_words sparrow source --cont
    unset -f compopt'
names() { complete_words sparrow source --keep '' | LC_ALL=C sort; }
printf '{"command": "cc -o CMakeFiles/tool.dir/a.o"} {"output": "b.p/a.o"} {"output": "b.p/c.o"}' \
    >"$room/sources/commands.json"
check 'the targets' 0 $'b\ntool\n' \
    complete_words sparrow source --compile-commands commands.json --target ''
check 'a target' 0 $'tool\n' \
    complete_words sparrow source --compile-commands commands.json --target t
check 'a target behind a =' 0 $'tool\n' \
    complete_words sparrow source --compile-commands = commands.json --target = t
check 'a database' 0 $'part\ncommands.json\n' complete_words sparrow source --compile-commands ''
check 'folders and files of C' 0 $'cut.c\noverrun.c\npart\n' names
finish
