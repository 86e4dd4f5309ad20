#!/usr/bin/env bash
# The release in dist/ is what its sources give. First tools/release makes and checks one of
# stand-ins; then it compares the program that was built here with the one of this checkout.
# shellcheck source=tests/lib.sh
. "$(dirname "$0")/lib.sh"
room=$(mktemp -d)
trap 'rm -rf "$room"' EXIT
mkdir -p "$room/tools" "$room/bin" "$room/crates/sparrow/out"
cp sparrow "$room"
cp tools/program.sh tools/needed tools/sources tools/release "$room/tools"
cat >"$room/crates.txt" <<'END'
# What is said of the crates.
sp_b:
sp_B: sp_b
sp_side: sp_b
sparrow: sp_B thiserror
END
source_of() { # FILE: a text of its own
    mkdir -p "$room/crates/${1%/*}"
    echo "// $1" >"$room/crates/$1"
}
for file in sparrow/src/main.rt sparrow/out/made.rt sparrow/data/a.c sp_b/src/lib.rt sp_B/src/lib.rt \
    sp_B/proofs/Laws.antt sp_b/must-fail/wrong.edit sp_side/src/lib.rt; do
    source_of "$file"
done
printf '#!/bin/sh\necho a kit\n' >"$room/bin/rt"
chmod +x "$room/bin/rt"
printf '# What each release brings\n\n## Release 12\n\n## Release 11\n' >"$room/CHANGELOG.md"

release() { PATH=$room/bin:$PATH "$room/tools/release" "$@"; }
built() { # STATUS: has a program that ends so built, of the sources as they are
    printf '#!/bin/sh\nexit %s\n' "$1" >"$room/crates/sparrow/out/sparrow"
    chmod +x "$room/crates/sparrow/out/sparrow"
}
sum_of() { sha256sum <"$1" | cut -d ' ' -f 1; }

# What the sum of the sources hangs on, and in which order, told without tools/sources: the program's
# crates, and in them what is proved.
{
    printf 'sp_B: sp_b\nsp_b:\nsparrow: sp_B thiserror\n'
    (cd "$room" && sha256sum crates/sp_B/proofs/Laws.antt crates/sp_B/src/lib.rt \
        crates/sp_b/src/lib.rt crates/sparrow/src/main.rt)
} >"$room/summed"
sources=$(sum_of "$room/summed")
check 'what counts' 0 "$sources"$'\n' "$room/tools/sources"

check 'no release' 0 $'no release is here: nothing is compared\n' release --check
check 'nothing is built' 1 '' release
check_said 'nothing is built' 'tools/release: no program is built here of these sources' release
built 0
check 'a release is made' 0 "release 12
kit a kit
sources $sources
program $(sum_of "$room/crates/sparrow/out/sparrow")
" release
check 'it runs' 0 '' "$room/dist/sparrow"
check 'it has the bytes' 0 $'release 12 is what these sources give\n' release --check
built 3
check 'other bytes of the same sources' 1 '' release --check
rm "$room/crates/sparrow/out/sparrow"
check 'the release alone' 0 \
    $'no program is built here of these sources: nothing is compared\n' release --check
echo '//' >>"$room/crates/sp_b/src/lib.rt"
check 'other sources' 0 \
    $'these are not the sources of release 12: nothing is compared\n' release --check
echo '#' >>"$room/dist/sparrow"
check_said 'bytes that dist/BUILT does not tell of' \
    'tools/release: dist/sparrow is not the program that dist/BUILT tells of' release --check
check 'they fail' 1 '' release --check
check 'another word' 3 '' release --help

# This checkout.
if answer=$(tools/release --check 2>&1); then pass; else fail 'the release of this checkout' ''; fi
echo "$answer"
# The program may need no later C library than ./sparrow asks for.
asked=$(sed -n 's/^library_needed=//p' sparrow)
needed=$(grep -ao 'GLIBC_2\.[0-9]*' "$(./sparrow --program)" | sort -Vu | tail -n 1)
check 'the C library that the program needs' 0 "GLIBC_$asked"$'\n' echo "$needed"
finish
