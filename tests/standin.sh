#!/bin/sh
# differential.sh on an archive and a program that stand in for the library's:
# it tries the link and the comparison where the library is not built.
set -eu
cd "$(dirname "$0")/../reference"
cargo build --offline --quiet --release -p standin -p checker
mkdir -p target/standin
printf '#!/bin/sh\nexec %s .\n' "$PWD/target/release/check" >target/standin/kefthrun
chmod +x target/standin/kefthrun
KEFTHRUN_ARCHIVE=$PWD/target/release KEFTHRUN_PROGRAM=$PWD/target/standin/kefthrun \
    exec ../tests/differential.sh "$@"
