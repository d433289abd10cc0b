#!/bin/sh
# Prints one sum of all that rt makes the crates of: crates.txt, HANDLES where there is one, and each file of crates/ but what rt keeps in their out/.
cd "$(dirname "$0")/.." || exit 1
export LC_ALL=C
{
    ls crates.txt HANDLES 2>/dev/null
    find crates -path 'crates/*/out' -prune -o -type f -print
} | sort | xargs sha256sum | sha256sum | cut -d ' ' -f 1
