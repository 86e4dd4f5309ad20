#!/usr/bin/env bash
# All tests that need the program alone, without a proof. Each script tells what it shows, and how
# much of it passed.
set -u
cd "$(dirname "$0")/.." || exit
./sparrow --program >/dev/null || exit 1

failed=()
for name in script install rows examples statuses cases source dist; do
    echo "== tests/$name.sh"
    bash "tests/$name.sh" || failed+=("tests/$name.sh")
done
echo "== tests/soundness.py"
python3 tests/soundness.py || failed+=("tests/soundness.py")
for name in hostile_self hostile; do
    echo "== tests/$name.py"
    python3 "tests/$name.py" || failed+=("tests/$name.py")
done
[ ${#failed[@]} -eq 0 ] || { echo "FAILED: ${failed[*]}"; exit 1; }
