#!/bin/sh
# Small false QBFs, refuted by DepQBF: every trace is checked by the reference
# checker and by the program. DepQBF is installed where that is possible; where
# it is missing this fails, unless KEFTHRUN_WITHOUT_DEPQBF is 1.
# KEFTHRUN_PROGRAM names another program than the one built here.
set -eu
cd "$(dirname "$0")/.."
# A new machine has no lists of packages until they are updated.
install() { apt-get install -y depqbf >/dev/null 2>&1; }
command -v depqbf >/dev/null || install || { apt-get update >/dev/null 2>&1 && install; } || true
if ! command -v depqbf >/dev/null; then
    if [ "${KEFTHRUN_WITHOUT_DEPQBF:-0}" = 1 ]; then
        echo "DepQBF is missing: NO TRACE OF IT IS CHECKED (KEFTHRUN_WITHOUT_DEPQBF=1)"
        exit 0
    fi
    echo "FAILED: DepQBF is missing and could not be installed; KEFTHRUN_WITHOUT_DEPQBF=1 goes on without it" >&2
    exit 1
fi
[ -n "${KEFTHRUN_PROGRAM:-}" ] || tests/fresh.sh target/bin/kefthrun
export KEFTHRUN_PROGRAM="${KEFTHRUN_PROGRAM:-$PWD/target/bin/kefthrun}"
cd reference
exec cargo test --offline --quiet -p qrp2steps --test depqbf -- --ignored --nocapture
