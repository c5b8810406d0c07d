#!/bin/sh
# The tidy texts of the examples and of files made here: bin/tidy prints what the
# reference checker prints, ends with status 0, and prints a tidy text again as it
# is. A file that is refused gives its line; no file gives status 2.
set -eu
cd "$(dirname "$0")/.."
tests/fresh.sh target/bin/tidy
(cd reference && cargo build --offline --quiet --release -p checker)
out=$(mktemp -d)
trap 'rm -rf "$out"' EXIT
trap 'exit 130' INT
trap 'exit 143' TERM
fail() { echo "FAILED: $1" && exit 1; }

# run STATUS ARGUMENT..: bin/tidy ends with this status; its lines are in $out/printed.
run() {
    wanted=$1 status=0
    shift
    bin/tidy "$@" >"$out/printed" 2>"$out/errors" || status=$?
    [ "$status" -eq "$wanted" ] || fail "tidy $*: exit status $status"
}

# same FILE: as the reference prints it, and nothing on standard error.
same() {
    run 0 "$1"
    reference/target/release/check --tidy "$1" | cmp - "$out/printed" || fail "$1"
    [ ! -s "$out/errors" ] || fail "$1: $(cat "$out/errors")"
}

# tidied FILE: accepted, and its tidy text stays as it is.
tidied() {
    same "$1"
    ! grep -q '^formula' "$out/printed" || fail "$1 is refused"
    cp "$out/printed" "$out/tidied"
    same "$out/tidied"
    cmp "$out/tidied" "$out/printed" || fail "the tidy text of $1"
}

# printed FILE LINE: this line and no other.
printed() {
    same "$1"
    echo "$2" | cmp - "$out/printed" || fail "$1"
}

# Bytes of a comment and its line feed, then a header.
commented() { printf 'c%*s\np cnf 0 0\n' "$(($1 - 2))" ''; }

for example in examples/*/; do
    case $(cat "${example}expected") in
    formula*) printed "${example}formula.dq" "$(cat "${example}expected")" ;;
    *) tidied "${example}formula.dq" ;;
    esac
done

tidied crates/tidy/data/formula.dq
run 0 crates/tidy/data/formula.dq
cmp "$out/printed" crates/tidy/stdout || fail "the formula of crates/tidy"
printf 'c\nc  c\np  cnf 4   3\na 3 0\nd  4 3 3 0\na 1 0\ne 2   0\n4  -2 4 0\n0\n3 -1 0\n' >"$out/untidy"
tidied "$out/untidy"
printf 'p cnf 4 3\na 3 1 0\nd 2 1 3 0\nd 4 3 0\n-2 4 0\n0\n-1 3 0\n' | cmp - "$out/tidied" || fail "untidy"
printf 'p cnf 9 0\ne 7 0\n' >"$out/undeclared"
tidied "$out/undeclared"
printf 'p cnf 0 0\n' >"$out/nothing in use"
tidied "$out/nothing in use"
commented 32758 >"$out/longest"
tidied "$out/longest"

# An `e` line becomes a `d` line for each variable: a text above the limit of a load, with 64 universals and with 256.
for existentials in 448 256; do
    {
        printf 'p cnf 512 0\na '
        seq -s ' ' "$((existentials + 1))" 512 | tr '\n' ' '
        printf '0\ne '
        seq -s ' ' 1 "$existentials" | tr '\n' ' '
        printf '0\n'
    } >"$out/long"
    same "$out/long"
    [ "$(wc -c <"$out/printed")" -gt 100000 ] || fail "the length of a long text"
    cp "$out/printed" "$out/longer"
    printed "$out/longer" "formula 0 11"
done

# 256 universals and no more.
for universals in 256 257; do
    {
        printf 'p cnf 300 0\na '
        seq -s ' ' 1 "$universals" | tr '\n' ' '
        printf '0\n'
    } >"$out/universals $universals"
done
tidied "$out/universals 256"
printed "$out/universals 257" "formula 2 11"

commented 32759 >"$out/too long"
printed "$out/too long" "formula 0 11"
printf '' >"$out/empty"
printed "$out/empty" "formula 1 10"
printf 'c\np cnf 1 1\n1 0\n' >"$out/refused"
printed "$out/refused" "formula 3 12"
printf 'p cnf 2 1\ne 1 2 0\n1 2 -1 0\n' >"$out/both signs"
printed "$out/both signs" "formula 3 13"
printf 'p cnf 1 2\ne 1 0\n1 0\n' >"$out/too few"
printed "$out/too few" "formula 3 14"

for arguments in "" - "$out/missing" "$out" "$out/empty $out/empty"; do
    run 2 $arguments
    [ ! -s "$out/printed" ] && [ -s "$out/errors" ] || fail "tidy $arguments"
done
echo "tidy: passed"
