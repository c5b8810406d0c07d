#!/bin/sh
# The examples, then 200,000 scenarios of the day's seed, or of the seed given.
set -eu
cd "$(dirname "$0")"
./examples.sh
exec ./differential.sh --seed "${1:-$(date +%Y%m%d)}" --count 200000 --jobs "$(nproc)"
