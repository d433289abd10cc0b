#!/bin/sh
# Says in a sentence what this machine lacks, what it is for and where it comes from, and ends with 1 if it lacks anything.
# Usage: tools/need.sh NEED...    where NEED is platform, rt, cargo, rustfmt, clippy, cc, gcc or c++; CC and CXX name other compilers
set -u
export LC_ALL=C
kit=13
rust=84
missing=0

# lacks SENTENCE: says it.
lacks() {
    echo "need: $1" >&2
    missing=1
}

# The kit compiles for this machine alone.
need_platform() {
    found=$(uname -s -m)
    [ "$found" = 'Linux x86_64' ] ||
        lacks "this is $found: the archive and the programs are for x86-64 Linux only, since the Rattle kit builds for no other machine"
}

# The kit's number stands at the begin of what `rt version` prints: rattle-kit-13f is 13.
need_rt() {
    from="it is the command of the Rattle kit, which proves and compiles the crates; install rattle-kit-$kit or newer and put its rt on PATH"
    if ! command -v rt >/dev/null; then
        lacks "rt is not installed: $from"
        return
    fi
    command -v python3 >/dev/null || {
        lacks "python3 is not installed: rt is a program in Python 3.8 or newer; the system's package python3 brings it"
        return
    }
    found=$(rt version 2>/dev/null | sed -n '1s/^\(rattle-kit-[0-9][0-9a-z]*\).*/\1/p')
    number=$(echo "$found" | sed 's/^rattle-kit-\([0-9]*\).*/\1/')
    [ -n "$number" ] && [ "$number" -ge "$kit" ] || lacks "rt is of ${found:-an unknown kit}, which is too old: $from"
}

need_cargo() {
    need_compiler cc "what Rust links programs with" gcc
    from="it comes with Rust 1.$rust or newer, from rustup or the system's packages"
    if ! command -v cargo >/dev/null; then
        lacks "cargo is not installed: $from"
        return
    fi
    found=$(cargo --version 2>/dev/null | sed -n '1s/^cargo \([0-9.]*\).*/\1/p')
    minor=$(echo "$found" | sed -n 's/^1\.\([0-9]*\).*/\1/p')
    [ -n "$minor" ] && [ "$minor" -ge "$rust" ] || lacks "cargo is of Rust ${found:-(unknown)}, which is too old: $from"
}

# need_part PACKAGE PROGRAM: a part of Rust that some packages leave out.
need_part() {
    "$2" --version >/dev/null 2>&1 ||
        lacks "$1 is not installed: it comes with Rust; \`rustup component add $1\` or the system's packages bring it"
}

# need_compiler PROGRAM WHAT PACKAGE
need_compiler() {
    command -v "$1" >/dev/null || lacks "$1 is not installed: it is $2; the system's package $3 brings it"
}

for need; do
    case $need in
    platform) need_platform ;;
    rt) need_rt ;;
    cargo) need_cargo ;;
    rustfmt) need_part rustfmt rustfmt ;;
    clippy) need_part clippy cargo-clippy ;;
    cc) need_compiler "${CC:-cc}" 'the C compiler' gcc ;;
    gcc) need_compiler gcc "the compiler that knows all of the header's attributes" gcc ;;
    c++) need_compiler "${CXX:-c++}" 'the C++ compiler' g++ ;;
    *) lacks "nobody knows what '$need' is: tools/need.sh has no such need" ;;
    esac
done
exit "$missing"
