#!/bin/sh
# The program prints the expected line for every example, and nothing else, and
# ends with status 0. KEFTHRUN_PROGRAM names another program than the one built
# here.
set -eu
cd "$(dirname "$0")/.."
[ -n "${KEFTHRUN_PROGRAM:-}" ] || tests/fresh.sh target/bin/kefthrun
program=${KEFTHRUN_PROGRAM:-$PWD/target/bin/kefthrun}
printed=$(mktemp)
trap 'rm -f "$printed"' EXIT
for example in examples/*/; do
    status=0
    (cd "$example" && exec "$program") >"$printed" 2>&1 || status=$?
    [ "$status" -eq 0 ] || { echo "FAILED: $example: exit status $status" && exit 1; }
    cmp "$printed" "${example}expected" || { echo "FAILED: $example" && exit 1; }
done
echo "examples: passed"
