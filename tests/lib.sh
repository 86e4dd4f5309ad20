# shellcheck shell=bash
# Sourced by the test scripts: counts what passes, and compares bytes and statuses exactly.
set -u
cd "$(dirname "${BASH_SOURCE[0]}")/.."
# shellcheck disable=SC2034
top=$PWD
passed=0
failed=0

pass() { passed=$((passed + 1)); }

fail() { # what was run, what came of it
    failed=$((failed + 1))
    printf 'FAILED %s\n%s\n' "$1" "$2"
}

# Ends the script where there is no gcc.
need_gcc() {
    command -v gcc >/dev/null 2>&1 && return
    echo "skipped: gcc isn't there"
    exit 0
}

# check NAME STATUS BYTES COMMAND..: runs the command, and wants exactly this status and these bytes on standard output. A
# newline that is missing at the end is seen.
check() {
    local name=$1 status=$2 want=$3 got
    shift 3
    got=$("$@" 2>/dev/null; printf 'status %s' $?)
    if [ "$got" = "${want}status $status" ]; then pass; else fail "$name" "$got"; fi
}

# check_said NAME LINE COMMAND..: wants exactly this line on standard error.
check_said() {
    local name=$1 want=$2 got
    shift 2
    got=$("$@" 2>&1 >/dev/null; printf x)
    if [ "$got" = "$want"$'\n'x ]; then pass; else fail "$name" "$got"; fi
}

# Prints the counts, and ends with status 1 where something failed.
finish() {
    echo "$passed passed, $failed failed"
    [ "$failed" -eq 0 ]
}
