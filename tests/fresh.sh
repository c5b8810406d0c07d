#!/bin/sh
# fresh.sh FILE..: each file is built, from the files that stand here now, and
# after the last change of one. fresh.sh --list prints their names.
set -eu
cd "$(dirname "$0")/.."
list() { find crates.txt crates \( -name must-fail -o -name out \) -prune -o -type f -print | LC_ALL=C sort; }
[ "${1:-}" != --list ] || { list && exit 0; }
for built in "$@"; do
    [ -e "$built" ] || { echo "FAILED: $built is not built" >&2; exit 2; }
    list | cmp -s - "$built.list" || { echo "FAILED: $built was built from other files: build it again" >&2; exit 2; }
    newer=$(find crates.txt crates \( -name must-fail -o -name out \) -prune -o -type f -newer "$built" -print)
    [ -z "$newer" ] || { echo "FAILED: $built is older than $(echo "$newer" | head -n 1): build it again" >&2; exit 2; }
done
