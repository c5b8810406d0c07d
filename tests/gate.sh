#!/bin/sh
# The tests of the gate beside the proofs: those of the sources and of the
# reference workspace, and those on the programs and the archive that stand in
# target (tools/build).
set -eu
cd "$(dirname "$0")/.."
tests/digits.sh
tests/reference.sh
tests/driver.sh
tests/examples.sh
tests/tidy.sh
tests/soundness.sh
tests/differential.sh --jobs "$(nproc)"
tests/depqbf.sh
