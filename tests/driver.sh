#!/bin/sh
# Builds the C++ driver and its tests against the library of the crate `driver`, plainly and with the address and undefined-behaviour sanitizers, and
# compares all that the driver prints for each example, and its exit status, with what is expected: the file `listed`, which the reference checker makes
# (reference/checker/tests/listed.rs).
set -eu
cd "$(dirname "$0")/.."
tests/fresh.sh target/staticlib/libdriver.a 2>/dev/null || tools/build driver
out=target/driver
mkdir -p "$out/other"
strict="-std=c++17 -Wall -Wextra -Werror"
archive=target/staticlib/libdriver.a
check() {
    g++ $strict $1 tests/pointers.cpp -o "$out/pointers"
    "$out/pointers"
    g++ $strict $1 tests/driver.cpp $archive -o "$out/tests"
    "$out/tests"
    g++ $strict $1 examples/driver.cpp $archive -o "$out/driver"
    for example in examples/*/; do
        status=0
        "$out/driver" "${example}formula.dq" "${example}steps.bin" >"$out/printed" || status=$?
        [ "$status" -eq 0 ] || { echo "FAILED: $example: exit status $status" && exit 1; }
        cmp "$out/printed" "${example}listed" || { echo "FAILED: $example" && exit 1; }
        head -n 1 "${example}listed" | cmp - "${example}expected" || { echo "FAILED: $example" && exit 1; }
    done
    status=0
    "$out/driver" >"$out/printed" 2>&1 || status=$?
    [ "$status" -eq 2 ] || { echo "FAILED: no arguments: exit status $status" && exit 1; }
    echo "driver ($1): passed"
}
check "-O2"
check "-O1 -g -fsanitize=address,undefined -fno-sanitize-recover=all"
sed 's/\(define KEFTHRUN_INTERFACE\) [0-9]*u/\1 65535u/' include/kefthrun.h >"$out/other/kefthrun.h"
g++ $strict "-I$out/other" tests/interface.cpp $archive -o "$out/interface"
"$out/interface"
gcc -std=c11 -Wall -Wextra -Werror -fsyntax-only -x c include/kefthrun.h
echo "header in C: passed"
