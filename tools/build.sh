#!/bin/sh
# Builds the archive or a program of what is proved. Usage: tools/build.sh libhubqr.a|qr|page    writes build/NAME, and build/NAME.log
# Only proved code is built. Right after `rt ci` the programs are those that it built and ran, and the archive is compiled over the libraries that it
# left: `rt lib` would prove all of them again, since it takes no library that it has not built itself. Else, where a file of crates/ has changed, or
# a library is gone or is one of `rt check`'s, rt proves what is not proved yet, which takes a while the first time.
# The archive is for every x86-64, as its headers say; left to itself the kit compiles for x86-64-v2, as it does the programs, which test for that.
set -u
cd "$(dirname "$0")/.." || exit 1
export LC_ALL=C
name=$1
log=$PWD/build/$name.log
cpu=--cpu=x86-64
mkdir -p build

# stands CRATE: the crates of the repository that its line of crates.txt names
stands() {
    for crate in $(sed -n "s/^$1\( staticlib\)\{0,1\}:\([^#]*\).*/\2/p" crates.txt); do
        [ ! -d "crates/$crate" ] || echo "$crate"
    done
}

# below CRATE..: these and all crates that they stand on
below() {
    for crate; do
        echo "$crate"
        below $(stands "$crate")
    done
}

# proved: whether rt ci has proved the files of crates/ as they stand
proved() {
    [ -f build/ci.sum ] && [ "$(cat build/ci.sum)" = "$(sh tools/sum.sh)" ]
}

# left CRATE..: whether the library of each is the one that rt ci left; beside one of its own, rt keeps a stamp
left() {
    for crate; do
        [ -f "crates/$crate/out/rlib/$crate.rlib/format" ] && [ ! -e "crates/$crate/out/rlib/stamp" ] || return 1
    done
}

# compiled: the archive over the libraries that rt ci left, by the command that `rt lib` gives over its own
compiled() {
    kit=$(dirname "$(rt doc)") || return 1
    set -- --crate-name hubqr_c src/lib.rt --extern "std=$kit/rlibs/std.rlib" -L "dependency=$kit/rlibs"
    for crate in $(stands hubqr_c); do
        set -- "$@" --extern "$crate=../$crate/out/rlib/$crate.rlib"
    done
    for crate in $libraries; do
        set -- "$@" -L "dependency=../$crate/out/rlib"
    done
    set -- "$@" --antt-project "$kit/rattle/logic/antt-project.json" --logic-built "$kit/logic_built" --links hubqr_c=
    set -- "$@" --crate-type staticlib "$cpu" --toolchain "$kit/toolchain" --backend llvm -o out/libhubqr_c.a
    (cd crates/hubqr_c && mkdir -p out && rm -f out/libhubqr_c.a && "$kit/bin/rattle" build "$@")
}

# shown COMMAND..: runs it, and shows what it said where it fails
shown() {
    "$@" >"$log" 2>&1 </dev/null || {
        cat "$log"
        exit 1
    }
}

case $name in
libhubqr.a)
    libraries=$(below $(stands hubqr_c) | sort -u)
    if proved && left $libraries && compiled >"$log" 2>&1; then
        :
    else
        echo 'proving hubqr_c and what it stands on: seconds where that has been proved here, else as long as its proofs take ..'
        rm -f crates/hubqr_c/out/libhubqr_c.a
        (cd crates/hubqr_c && shown rt lib "$cpu") || exit 1
    fi
    cp crates/hubqr_c/out/libhubqr_c.a build/libhubqr.a
    ;;
qr | page)
    if ! proved || [ ! -f "crates/$name/out/$name" ]; then
        echo "proving $name and what it stands on: seconds where that has been proved here, else as long as its proofs take .."
        # It also runs: on an empty input, which it refuses in a record or a line.
        (cd "crates/$name" && shown rt run) || exit 1
    fi
    cp "crates/$name/out/$name" "build/$name"
    ;;
*)
    echo "build: nobody knows how to build '$name'" >&2
    exit 1
    ;;
esac
