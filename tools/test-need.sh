#!/bin/sh
# tools/need.sh on machines that lack something: folders of programs that answer as they should, or do not.
set -u
cd "$(dirname "$0")/.." || exit 1
export LC_ALL=C
unset CC CXX
script=test-need
. tools/checks.sh

# program NAME TEXT: a program on the machine that prints a text.
program() {
    printf '#!/bin/sh\necho "%s"\n' "$2" >"$scratch/bin/$1"
    chmod +x "$scratch/bin/$1"
}

# machine: one that has everything, and of the real one only what the script itself uses.
machine() {
    rm -rf "$scratch/bin"
    mkdir "$scratch/bin"
    ln -s "$(command -v sed)" "$(command -v sh)" "$scratch/bin/"
    program uname 'Linux x86_64'
    program rt 'rattle-kit-13f logic dac8208d650f15bf'
    program cargo 'cargo 1.84.0 (66221abde 2024-11-19)'
    for name in python3 rustfmt cargo-clippy cc gcc c++; do
        program "$name" "$name"
    done
}

everything='platform rt cargo rustfmt clippy cc gcc c++'

# has NEED...: the machine has them, and nothing is said.
has() {
    said=$(PATH="$scratch/bin" "$scratch/bin/sh" tools/need.sh "$@" 2>&1) || fail "it has $*, and yet: $said"
    [ -z "$said" ] || fail "it has $*, and yet: $said"
    passed=$((passed + 1))
}

# lacks NEED TEXT: the machine lacks it, and the sentence has the text.
lacks() {
    said=$(PATH="$scratch/bin" "$scratch/bin/sh" tools/need.sh "$1" 2>&1) && fail "it lacks $1, and nothing is said"
    case $said in
    "need: "*"$2"*) passed=$((passed + 1)) ;;
    *) fail "it lacks $1, and '$2' is not said: $said" ;;
    esac
}

machine
has $everything
program rt 'rattle-kit-100 logic 0'
program cargo 'cargo 1.100.0'
has $everything
for other in 'Linux aarch64' 'Darwin arm64'; do
    program uname "$other"
    lacks platform "this is $other: the archive and the programs are for x86-64 Linux only"
done
for other in rattle-kit-12c rattle-kit-5b; do
    program rt "$other logic 0"
    lacks rt "rt is of $other, which is too old: "
done
program rt 'something else'
lacks rt 'rt is of an unknown kit, which is too old: '
program cargo 'cargo 1.83.0 (5ffbef321 2024-10-29)'
lacks cargo 'cargo is of Rust 1.83.0, which is too old: it comes with Rust 1.84 or newer'
program cargo 'something else'
lacks cargo 'cargo is of Rust (unknown), which is too old: '
machine
rm "$scratch/bin/python3"
lacks rt 'python3 is not installed: rt is a program in Python'
machine
rm "$scratch/bin/cc"
lacks cargo "cc is not installed: it is what Rust links programs with"
machine
for name in rt cargo cargo-clippy rustfmt cc gcc c++; do
    rm "$scratch/bin/$name"
done
lacks rt 'rt is not installed: it is the command of the Rattle kit'
lacks cargo 'cargo is not installed: it comes with Rust 1.84 or newer'
lacks rustfmt 'rustfmt is not installed: it comes with Rust'
lacks clippy 'clippy is not installed: it comes with Rust'
lacks cc 'cc is not installed: it is the C compiler'
lacks gcc "gcc is not installed: it is the compiler that knows all of the header's attributes"
lacks c++ 'c++ is not installed: it is the C++ compiler'
CC=other-cc
export CC
lacks cc 'other-cc is not installed: '
unset CC
machine
lacks 'a mill' "nobody knows what 'a mill' is"
echo "need: $passed checks passed"
