#!/bin/sh
# The tests of the reference workspace.
set -eu
cd "$(dirname "$0")/../reference"
exec cargo test --offline --quiet
