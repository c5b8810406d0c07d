#!/bin/sh
# Nothing true is called refuted by the archive: small formulas that are decided
# by trying all families of functions, with permitted steps on them and with any
# steps. KEFTHRUN_ARCHIVE (a folder with libdriver.a) names another archive than
# the one that is built here.
set -eu
cd "$(dirname "$0")/.."
[ -n "${KEFTHRUN_ARCHIVE:-}" ] || tests/fresh.sh target/staticlib/libdriver.a
export KEFTHRUN_ARCHIVE="${KEFTHRUN_ARCHIVE:-$PWD/target/staticlib}"
cd reference
exec cargo test --offline --quiet --release -p archive --test soundness -- --nocapture
