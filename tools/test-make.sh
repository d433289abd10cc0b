#!/bin/sh
# What the Makefile says for itself: `make` lists every target that is there and no other, and a target whose tool is missing ends in a sentence
# before anything is made.
set -u
cd "$(dirname "$0")/.." || exit 1
export LC_ALL=C
unset MAKEFLAGS MAKELEVEL MFLAGS
script=test-make
. tools/checks.sh

# The targets that are no files, and the three files that people ask for; `help` is what a bare `make` makes.
sed -n 's/^\.PHONY: //p' Makefile | tr ' ' '\n' | grep -v -x help >"$scratch/there"
printf 'build/libhubqr.a\nbuild/qr\nbuild/page\n' >>"$scratch/there"
make | sed -n 's/^make  *\([a-z/.-]*\)  *.*/\1/p' | grep -v -x lists >"$scratch/listed"
sort -o "$scratch/there" "$scratch/there"
sort -o "$scratch/listed" "$scratch/listed"
differ=$(diff "$scratch/there" "$scratch/listed") || fail "make lists other targets than there are: $differ"
passed=$((passed + 1))

# A machine that has make and the tools of every system, and no kit, Rust or compiler.
mkdir "$scratch/bin"
for name in make sh find sed uname; do
    ln -s "$(command -v $name)" "$scratch/bin/" || fail "this machine has no $name"
done

# stops TARGET TEXT: it cannot be made there, and the sentence begins with the text.
stops() {
    said=$(PATH="$scratch/bin" make "$1" 2>&1) && fail "make $1 needs nothing"
    case $said in
    "need: $2"*) passed=$((passed + 1)) ;;
    *) fail "make $1 does not say '$2' first: $said" ;;
    esac
}

for target in prove try-edits build/libhubqr.a build/qr build/page build/cargo/release/record check-tools; do
    stops "$target" 'rt is not installed: '
done
for target in run check-format check-docs demands; do
    stops "$target" 'cc is not installed: it is what Rust links programs with'
done
printf '#!/bin/sh\n' >"$scratch/bin/cc"
chmod +x "$scratch/bin/cc"
stops run 'cargo is not installed: '
echo "make: $passed checks passed"
