#!/bin/sh
# Makes random calls of the library and compares them with the steps and the exact model in C++, then times calls. Needs rt, g++
# and GMP. The number of calls of each kind, 100,000 unless it is given, and the seed may follow:
#
#     sh tools/random_calls/run.sh 100000 1
set -eu
cd "$(dirname "$0")/../.."
(cd crates/trial_exports && rt lib)
mkdir -p target/random_calls
for program in calls speed; do
    g++ -std=c++17 -O3 -Wall -Wextra -o "target/random_calls/$program" "tools/random_calls/$program.cpp" \
        crates/trial_exports/out/libtrial_exports.a -lgmpxx -lgmp
done
target/random_calls/calls "${1:-100000}" "${2:-1}"
target/random_calls/speed
