#!/bin/sh
# Runs the program disk on standard input and a path. The first run proves and builds it, which takes some minutes; later ones only if a
# file has changed. What the prover says goes to standard error.
#
#     printf '3 1000 3000\n' | sh tools/disk.sh three.store
set -eu
case "${1:-}" in
'' | /*) ;;
*) set -- "$PWD/$1" ;;
esac
cd "$(dirname "$0")/../crates/disk"
exec rt run -- "$@"
