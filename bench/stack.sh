#!/bin/sh
# Measures how much stack each call takes, from the top of the repository.
# Usage: bench/stack.sh [--markdown]. HUBQR_LIB_DIR names another folder with a libhubqr.a to measure.
set -eu

archive=${HUBQR_LIB_DIR:-build}/libhubqr.a
scratch=$(mktemp -d)
trap 'rm -rf "$scratch"' EXIT
# No call's first use of a C function may look that up on its stack, and what is handed over by value has its place beforehand.
gcc -std=gnu11 -O2 -Wall -Wextra -maccumulate-outgoing-args -Wl,-z,now -Iinclude bench/stack.c "$archive" -o "$scratch/stack"
"$scratch/stack" "$@"
