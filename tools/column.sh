#!/bin/sh
# Runs the program column on standard input. The first run proves and builds it, which takes some minutes; later ones only if a file has
# changed. What the prover says goes to standard error.
#
#     printf '3 1000 3000\n' | sh tools/column.sh
set -eu
cd "$(dirname "$0")/../crates/column"
exec rt run
