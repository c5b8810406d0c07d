#!/bin/sh
# Document 02, Note 2: lines::digits makes every digit of a printed or written text.
# The crates that write lines and texts have no division and no remainder, no other
# code makes digits, and none but test programs prints numbers with the toolchain's
# own printer.
set -eu
cd "$(dirname "$0")/.."
fail() { echo "FAILED: $1" && exit 1; }

for crate in lines words formula_lines formula_text verdict; do
    for file in crates/"$crate"/src/*.rt; do
        ! sed 's|//.*||' "$file" | grep -n '[/%]' || fail "$file divides"
    done
done

! grep -nE "\b48 \+|\+ 48\b|b'0' \+|\+ b'0'" crates/*/src/*.rt | grep -v '^crates/lines/src/digits.rt:' ||
    fail "digits are made elsewhere"

for file in $(grep -lE '\b(print|println|eprint|eprintln|write|writeln|format|format_args)!|\.(print|println|eprint|eprintln|writeln|write_fmt)\(|to_string\(|\bPrint::|\bdbg!|\b(Display|Debug|LowerHex|UpperHex|Binary|Octal|LowerExp|UpperExp)\b|\b(itoa|ryu)\b' crates/*/src/*.rt); do
    case $file in
    crates/printed/* | crates/*_test/*) ;;
    *) fail "$file prints numbers" ;;
    esac
done
echo "digits: no division, one digit function"
