#!/bin/sh
# A project of somebody else links the crate: README's lines for Cargo.toml and its Rust lines, in a folder beside a repository called
# yuzhattim, and in one inside of it. Run from anywhere, with build/libhubqr.a made; nothing is fetched.
set -u
cd "$(dirname "$0")/../.." || exit 1
export LC_ALL=C
unset HUBQR_LIB_DIR CARGO_TARGET_DIR CARGO_BUILD_TARGET_DIR
if [ ! -f build/libhubqr.a ]; then
    echo "project: build/libhubqr.a is not there: run \`make build/libhubqr.a\`" >&2
    exit 1
fi
top=$PWD
passed=0
beside=$(mktemp -d) || exit 1
inside=$(mktemp -d -p build) || exit 1
trap 'rm -rf "$beside" "$top/$inside"' EXIT

fail() {
    echo "project: FAILED after $passed checks: $1" >&2
    sed 's/^/    /' "$beside/output" "$beside/messages" >&2
    exit 1
}

# block LANGUAGE: the lines of README's block in a language.
block() {
    awk -v start="\`\`\`$1" '$0 == start { on = 1; next } /^```/ { on = 0 } on' README.md
}

# project FOLDER: writes a project with README's lines, which factors a sample record, works out weights, verifies the result and logs it.
project() {
    mkdir -p "$1/src"
    {
        printf '[package]\nname = "hub"\nversion = "0.1.0"\nedition = "2021"\n\n'
        block toml
    } >"$1/Cargo.toml"
    {
        echo 'fn main() -> Result<(), hubqr::Refusal> {'
        echo "let record = std::fs::read(\"$top/examples/records/hermitian.bin\").unwrap();"
        echo 'let targets = [hubqr::Sample { re: 16384, im: 0 }; hubqr::ANTENNAS];'
        echo 'let (mut buffer, today) = ([0; 4096], 20_000);'
        block rust
        echo 'let logged = journal.used();'
        echo 'println!("kind {}, all heard: {all_heard}, weights: {}, right: {right}, logged: {logged}", result[0], weights.len());'
        echo 'Ok(())'
        echo '}'
    } >"$1/src/main.rs"
}

# run FOLDER [NAME=VALUE]: builds the project from nothing and runs it, with what it prints and cargo's messages in files.
run() {
    folder=$1
    shift
    rm -rf "$beside/target"
    (cd "$folder" && env "$@" cargo run --offline --target-dir "$beside/target") >"$beside/output" 2>"$beside/messages"
}

# works WHAT FOLDER [NAME=VALUE]: the project builds and prints what it should.
works() {
    what=$1
    shift
    run "$@" && [ "$(cat "$beside/output")" = "$printed" ] || fail "a project $what does not work"
    passed=$((passed + 1))
}

# says TEXT FOLDER NAME=VALUE: the project does not build, and a message has the text.
says() {
    text=$1
    shift
    run "$@" && fail "a project builds with $2"
    grep -q -F -e "$text" "$beside/messages" || fail "no message has '$text' with $2"
    passed=$((passed + 1))
}

ln -s "$top" "$beside/yuzhattim" || exit 1
printed='kind 2, all heard: true, weights: 8, right: true, logged: 2054'
project "$beside/hub"
mkdir "$beside/archive" "$beside/empty"
cp build/libhubqr.a "$beside/archive/"
works 'without HUBQR_LIB_DIR' "$beside/hub"
works 'with an empty HUBQR_LIB_DIR' "$beside/hub" HUBQR_LIB_DIR=
works 'with an absolute HUBQR_LIB_DIR' "$beside/hub" "HUBQR_LIB_DIR=$beside/archive"
says "$beside/empty/libhubqr.a is not there" "$beside/hub" "HUBQR_LIB_DIR=$beside/empty"
says 'HUBQR_LIB_DIR is `../archive`, which is no absolute path' "$beside/hub" HUBQR_LIB_DIR=../archive

# The same project inside of the repository, with the empty table that README asks for there.
project "$inside"
sed "s,\"../yuzhattim/host/rust\",\"$top/host/rust\"," "$inside/Cargo.toml" >"$beside/manifest"
{ cat "$beside/manifest" && printf '\n[workspace]\n'; } >"$inside/Cargo.toml"
works 'inside of the repository' "$inside"

# A project that wants the words of refusals and no call has the archive left out.
project "$beside/words"
sed 's," }$,"\, default-features = false },' "$beside/hub/Cargo.toml" >"$beside/words/Cargo.toml"
echo 'fn main() { println!("{}", hubqr::Refusal::NoneHeard.number()) }' >"$beside/words/src/main.rs"
printed=4
works 'without the archive' "$beside/words" "HUBQR_LIB_DIR=$beside/empty"
echo "project: $passed checks passed"
