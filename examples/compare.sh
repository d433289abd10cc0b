#!/bin/sh
# Runs the C and the Rust example on every sample record, from the top of the repository, and compares what they print and their
# exit status. Usage: examples/compare.sh C_PROGRAM RUST_PROGRAM
set -u

if [ $# -ne 2 ]; then
    echo "usage: examples/compare.sh C_PROGRAM RUST_PROGRAM" >&2
    exit 2
fi
c_program=$1
rust_program=$2
records=examples/records
script=examples
. tools/checks.sh
. examples/twins.sh

check 0 'turn 120 of 120, made 120, count 1, clamps 0 in R, 0 in Q, rounds of other work 18'
check 0 'heard antennas: 0 1 2 3 4 5 6 7' $records/hermitian.bin
check 0 'heard antennas: 0 1 2 3 4 6 7' $records/loose-plug.bin
check 0 'result record: kind 02, 2049 bytes' $records/extremes.bin
check 0 'turn   7 of 120, made   0, count 7, clamps 0 in R, 0 in Q, rounds of other work 1' $records/single.bin
check 0 'turn 120 of 120, made   0, count 1, clamps 0 in R, 0 in Q, rounds of other work 18' $records/single.bin
for refused in hum zeros; do
    check 1 'refused with number 4: no antenna was heard: the real part of every diagonal element is 16 or less' $records/$refused.bin
done
check 1 'refused with number 1: ' $records/README.md
printf '\001' >"$scratch/short.bin"
check 1 'refused with number 2: ' "$scratch/short.bin"
check 1 'No such file' "$scratch/absent.bin"
check 1 'No such file' "$scratch/$(printf '\377').bin"
check 2 'usage: ' one two
check_full
echo "examples: $passed checks passed"
