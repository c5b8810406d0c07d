#!/bin/sh
# The library, through its archive and through its program, against the reference
# checker: 5,000 seeded scenarios, or as the options say. Each scenario that
# differs is written to reference/target/failures; --replay FILE repeats one.
# KEFTHRUN_ARCHIVE (a folder with libdriver.a) and KEFTHRUN_PROGRAM name others
# than those that are built here.
set -eu
cd "$(dirname "$0")/.."
[ -n "${KEFTHRUN_ARCHIVE:-}" ] || tests/fresh.sh target/staticlib/libdriver.a
[ -n "${KEFTHRUN_PROGRAM:-}" ] || tests/fresh.sh target/bin/kefthrun
export KEFTHRUN_ARCHIVE="${KEFTHRUN_ARCHIVE:-$PWD/target/staticlib}"
program=${KEFTHRUN_PROGRAM:-$PWD/target/bin/kefthrun}
cd reference
cargo build --offline --quiet --release -p archive
exec target/release/archive --seed 1 --count 5000 --program "$program" --failures target/failures "$@"
