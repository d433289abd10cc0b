#!/bin/sh
# tools/try-edits.sh on a made-up crate, with a program in rt's place that prints the files as they are checked: each edit file is applied to the
# crate as it stands, its pairs one after another, and what is checked is kept.
set -u
cd "$(dirname "$0")/.." || exit 1
export LC_ALL=C
script=test-try-edits
. tools/checks.sh
top=$PWD
tree=$scratch/tree
mkdir -p "$scratch/bin" "$tree/tools" "$tree/crates/a/src" "$tree/crates/a/proofs" "$tree/crates/a/out" "$tree/crates/a/must-fail"
printf '#!/bin/sh\necho "rt: chose --jobs 1"\ncat src/* proofs/*\nls\necho logic=not-proved\nexit 1\n' >"$scratch/bin/rt"
chmod +x "$scratch/bin/rt"
PATH=$scratch/bin:$PATH
cp tools/try-edits.sh tools/checks.sh "$tree/tools/"
cd "$tree" || exit 1
echo 'a:' >crates.txt
printf 'one & two\n\n    three\n' >crates/a/src/lib.rt
echo 'four' >crates/a/proofs/Law.antt
printf 'wrong: x\nfn: f\nfile: src/lib.rt\nold: one\nnew: five\\n\nold: five\nnew: six & \nfile: proofs/Law.antt\nold: four\nnew:\n' >crates/a/must-fail/first.edit
printf 'wrong: y\nfn: f\nfile: src/lib.rt\nold:     three\nnew:     seven\n' >crates/a/must-fail/second.edit

told=$(sh tools/try-edits.sh a 2>&1) || fail "it ends badly: $told"
case $told in
*'tried: 2 files'*) passed=$((passed + 1)) ;;
*) fail "it does not say that it tried 2 files: $told" ;;
esac

# holds LABEL TEXT: the log of an edit file is this
holds() {
    [ "$(cat "build/must-fail/a/$1.log")" = "$2" ] || fail "the log of $1 is: $(cat "build/must-fail/a/$1.log")"
    passed=$((passed + 1))
}

holds first 'six & \n & two

    three

proofs
src
logic=not-proved'
holds second 'one & two

    seven
four
proofs
src
logic=not-proved'
[ "$(cat crates/a/src/lib.rt)" = 'one & two

    three' ] || fail 'the crate itself has changed'
passed=$((passed + 1))
sh tools/try-edits.sh b >/dev/null 2>&1 && fail 'it tries a crate that is not there'
cd "$top" || exit 1
echo "try-edits: $passed checks passed"
