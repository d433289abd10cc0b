#!/bin/sh
# Tests tools/check-edits.sh on made-up edits of a crate `a`, on what rt says of them and on logs of their checks: what it passes, and each thing
# that it must notice.
set -eu
export LC_ALL=C
room=$(mktemp -d)
trap 'rm -rf "$room"' EXIT
mkdir "$room/tools"
cp "$(dirname "$0")/check-edits.sh" "$room/tools/"
cd "$room"
cases=0
failed=0

# edit LABEL: writes an edit file from standard input, and the crate's code.
edit() {
    mkdir -p crates/a/must-fail crates/a/src build
    cat >"crates/a/must-fail/$1.edit"
    printf 'pub fn f() -> u8\n    ensures { 1 }\n{\n    2\n}\n\n#[tactic(auto)]\nfn h() -> u8 {\n    3\n}\n\npub struct Sums {\n    n: u8,\n}\n' >crates/a/src/lib.rt
    printf 'impl Word {\n    pub fn new() -> u8 {\n        2\n    }\n}\n\npub(crate) fn f() -> u8 {\n    2\n}\n' >crates/a/src/m.rt
    for block in 'impl Lane for Word' 'impl<W: Lane> Rows<W>' 'impl<const N: usize> TryFrom<a::Rows<N, u32>> for [u8; a_b::SIZE]' 'impl Sums'; do
        printf '\n%s {\n    fn g(w: u8) -> u8 {\n        w\n    }\n}\n' "$block" >>crates/a/src/m.rt
    done
}

# told LABEL TEXT: what rt ci says of an edit file.
told() {
    mkdir -p build
    echo "rt: must-fail a/$1.edit: $2" >>build/ci.log
}

# log LABEL: the log of its check, from standard input. Below, "fn f:" and the like stand for the crate's `fn a::f:`.
log() {
    mkdir -p build/must-fail/a
    { sed -e 's/^fn /fn a::/' && echo 'logic=not-proved'; } >"build/must-fail/a/$1.log"
}

# program NAME CARRIER: a wrong program with one pair
program() { printf 'wrong: %s\n%s\nfile: src/lib.rt\nold: x\nnew: y\n\n' "$1" "$2"; }

# open PLACE GOAL: what a check says of a goal that it could not show
open() { echo "note: $1: it is not proved that what the function ensures holds when it returns (\`$2\`)"; }

# expect STATUS TEXT [WORD..]: the script, called with these words, ends with this status and prints a line with this text. Clears all for the next case.
expect() {
    cases=$((cases + 1))
    wanted=$1
    text=$2
    shift 2
    status=0
    sh tools/check-edits.sh "$@" >said 2>&1 || status=$?
    if [ "$status" -ne "$wanted" ] || ! grep -qF "$text" said; then
        echo "case $cases: wanted status $wanted and \"$text\"; got status $status and:"
        sed 's/^/    /' said
        failed=1
    fi
    rm -rf crates build
}

# In the gate: by what rt ci says of each file.
refused='refused, as it must be'

program one 'fn: f' | edit one
told one "$refused: $(open src/lib.rt:4:5 returns)"
expect 0 'edits: 1 wrong programs in 1 files, each refused, 1 of these first where a program of theirs says so'

# the same by its first line, in a module, in an impl, and by an attribute above it; then in impls of traits, with parameters, and of another module's type
for pair in 'f src/lib.rt:1:1' 'a::m::f src/m.rt:7:1' 'm::Word::new src/m.rt:3:9' 'h src/lib.rt:7:1' 'a::h src/lib.rt:9:5' \
    'm::WordLane::g src/m.rt:13:9' 'm::Rows::g src/m.rt:18:5' 'm::ArrayU8abSIZETryFromRowsU32::g src/m.rt:25:9' 'Sums::g src/m.rt:31:9'; do
    program one "fn: ${pair% *}" | edit one
    told one "$refused: $(open "${pair#* }" returns)"
    expect 0 'each refused, 1 of these first'
done

{ program one 'fn: f' && program two 'law: some_law'; } | edit both
told both "$refused: ./proofs/Law.antt:1:2: error: \`some_law\`: the two types differ"
program three 'fn: m::f' | edit three
told three "$refused: ./proofs/m/f/Answers.antt:8:3: error: \`returns\`: the two sides differ"
expect 0 'edits: 3 wrong programs in 2 files, each refused, 2 of these first'

program one 'fn: f' | edit one
expect 1 'there is no build/ci.log'

program one 'fn: f' | edit one
told other "$refused: $(open src/lib.rt:4:5 returns)"
expect 1 'one.edit: build/ci.log says nothing of it'

for text in 'BAD EDIT: there is no file src/x.rt' 'NOT REFUSED: the crate is still proved with this edit' 'NOT TRIED: its check was killed'; do
    program one 'fn: f' | edit one
    told one "$text"
    expect 1 "one.edit: it was not refused: $text"
done

program one 'fn: f' | edit one
told one "$refused (only because a proof file names what the edit took away, so this says little): proofs/f/Answers.antt:1:2: error: x"
expect 1 'one.edit: it is refused only since a proof names what the edit took away'

program one 'fn: f' | edit one
told one "$refused (only by a limit of the prover, which gave no verdict): src/lib.rt:4:5: error: x"
expect 1 'one.edit: it is refused only by a limit of the prover'

program one 'fn: f' | edit one
told one "$refused"
expect 1 'one.edit: rt ci does not say where the error stands'

# another function or law falls first
program one 'fn: f' | edit one
told one "$refused: $(open src/lib.rt:9:5 returns)"
expect 0 'each refused, 0 of these first'

program one 'law: some_law' | edit one
told one "$refused: ./proofs/Law.antt:1:2: error: \`other_law\`: the two types differ, see \`some_law\`"
expect 0 'each refused, 0 of these first'

# The form of edit files, in both ways.
program one '' | edit one
told one "$refused: $(open src/lib.rt:4:5 returns)"
expect 1 'one.edit: one: it has no fn: and no law: line'

printf 'wrong: one\nfn: f\nfile: src/lib.rt\nold: x\n' | edit one
told one "$refused: $(open src/lib.rt:4:5 returns)"
expect 1 'one: it has no old: and new: pair'

printf 'file: src/lib.rt\nold: x\nnew: y\n' | edit one
told one "$refused: $(open src/lib.rt:4:5 returns)"
expect 1 'one.edit: line 3 belongs to no wrong: line'

echo 'a remark' | edit one
told one "$refused: $(open src/lib.rt:4:5 returns)"
expect 1 'one.edit: it has no wrong: line'

program one 'fn: f' | edit one
program one 'fn: h' | edit two
told one "$refused: $(open src/lib.rt:4:5 returns)"
told two "$refused: $(open src/lib.rt:9:5 returns)"
expect 1 'two.edit: one: this name stands in crates/a/must-fail/one.edit too'

{ program one 'fn: f' && program two 'fn: a::f'; } | edit both
told both "$refused: $(open src/lib.rt:4:5 returns)"
expect 1 'two: fn a::f is named by one as well'

printf 'wrong: one\nfn: f\nerrors: two\nfile: src/lib.rt\nold: x\nnew: y\n' | edit one
told one "$refused: $(open src/lib.rt:4:5 returns)"
expect 1 'one: line 3: errors: wants a number'

expect 1 'edits: there are none'

# One wrong program after another, by the logs of their checks.
no_proof='no proof: expected answers in ./proofs/f/Answers.antt; `search` did not prove `returns`'

program one 'fn: f' | edit one
{ open src/lib.rt:4:5 returns && echo "fn f: $no_proof"; } | log one
expect 0 'edits: 1 wrong programs, each refused by itself' each a

{ program one 'fn: f' && program two 'fn: m::f'; } | edit both
{
    open src/lib.rt:4:5 returns
    echo "fn f: $no_proof"
    printf './proofs/m/f/Answers.antt:1:2: error: `returns`: the two sides differ\n  where one has x\nfn m::f: not proved\n'
    echo 'fn h: no proof: it calls `a::f` and `a::m::f`, which are not proved'
} | log both
program three 'law: some_law' | edit three
echo './proofs/Law.antt:1:2: error: `some_law`: the two types differ' | log three
expect 0 'edits: 3 wrong programs' each

program one 'fn: f' | edit one
expect 1 'one.edit: there is no build/must-fail/a/one.log' each a

program one 'fn: f' | edit one
echo 'fn f: proved' | log one
expect 1 'one: fn a::f was not refused by itself: proved' each a

program one 'fn: f' | edit one
{ open src/lib.rt:4:5 returns && echo "fn f: $no_proof"; } | log one
sed -i '$s/.*/rattle ran out of memory/' build/must-fail/a/one.log
expect 1 'one.edit: its check ended in: rattle ran out of memory' each a

program one 'fn: f' | edit one
{ open src/lib.rt:9:5 returns && printf 'fn h: not proved\nfn f: no proof: it calls `a::h`, which is not proved\n'; } | log one
expect 1 'one: fn a::f was not refused by itself: no proof: it calls `a::h`' each a

program one 'fn: f' | edit one
{ open src/lib.rt:9:5 returns && echo 'fn h: not proved'; } | log one
expect 1 'one: the log has no fn a::f' each a

program one 'law: some_law' | edit one
echo './proofs/Law.antt:1:2: error: `some_law`: `lemma` was not admitted (it was rejected), so this cannot be checked' | log one
expect 1 'one: the log has no error of law some_law itself' each a

program one 'fn: m::f' | edit one
{
    echo './proofs/m/f/Answers.antt:1:2: error: `returns`: module `Goals` has no `add` that can'
    echo '  be named from here'
    printf './proofs/m/f/Answers.antt:5:2: error: `returns`: the two sides differ\nfn m::f: not proved\n'
} | log one
expect 1 'one: it made the text of proofs/m/f/Answers.antt unfit' each a

program one 'fn: m::f' | edit one
{
    echo './proofs/m/f_more/Answers.antt:1:2: error: `add`: record `Call` has no field `before`'
    printf './proofs/m/f/Answers.antt:5:2: error: `returns`: the two sides differ\nfn m::f: not proved\n'
} | log one
expect 0 'edits: 1 wrong programs' each a

program one 'law: some_law' | edit one
{
    echo './proofs/Law.antt:1:2: error: `lemma`: `x` is not in scope'
    echo './proofs/Law.antt:3:4: error: `some_law`: the two types differ'
} | log one
expect 1 'one: it made the text of proofs/Law.antt unfit' each a

# several pairs of one program, each of which has its error
table() {
    printf 'wrong: one\n%s\nerrors: %s\nfile: src/lib.rt\nold: x\nnew: y\nold: u\nnew: v\n' "$1" "$2" | edit one
    {
        printf './proofs/f/Answers.antt:%s: error: `rows`: the two types differ\n' 1:2 1:9
        echo 'fn f: not proved'
    } | log one
}

table 'law: rows' 2
expect 0 'edits: 1 wrong programs' each a

table 'law: rows' 3
expect 1 'one: law rows has 2 errors in the log, and not 3' each a

table 'fn: f' 2
expect 0 'edits: 1 wrong programs' each a

table 'fn: f' 1
expect 1 'one: fn a::f has 2 errors in the log, and not 1' each a

# two fields of a record that is proved in one declaration
record() {
    { program one 'law: kept.words' && program two 'law: kept.written'; } | edit both
    printf './proofs/Law.antt:%s: error: `kept`: the two types differ\n' "$@" | log both
    mkdir -p crates/a/proofs
    printf 'other = record {\n  written = 1;\n}\nkept = record {\n  words =\n      one;\n  written = two;\n}\n' >crates/a/proofs/Law.antt
}

record 6:3 7:3
expect 0 'edits: 2 wrong programs' each a

record 6:3 6:5
expect 1 'two: the log has no error of law kept.written itself' each a

record 4:3 7:3
expect 1 'one: the log has no error of law kept.words itself' each a

# a function that calls another wrong one: refused by itself only if its own proof has an error
calls() {
    { program one 'fn: f' && program two 'fn: h'; } | edit both
    {
        open src/lib.rt:9:5 returns
        printf '%s\nfn h: not proved\nfn f: not proved; it calls `a::h`, which is not proved\n' "$1"
    } | log both
}

calls './proofs/f/Answers.antt:1:2: error: `returns`: the two sides differ'
expect 0 'edits: 2 wrong programs' each a

calls './proofs/f/Answers.antt:1:2: error: `close`: `h` was not admitted (it was rejected), so this cannot be checked'
expect 1 'one: fn a::f was not refused by itself: not proved; it calls `a::h`' each a

[ "$failed" -eq 0 ] || exit 1
echo "check-edits: $cases cases as expected"
