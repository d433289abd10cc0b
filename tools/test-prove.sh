#!/bin/sh
# tools/prove.sh and tools/build.sh on a made-up tree, with a program in rt's place that does what each case says: what counts as proved, and what
# is taken of what rt ci left.
set -u
cd "$(dirname "$0")/.." || exit 1
export LC_ALL=C
script=test-prove
. tools/checks.sh
top=$PWD
ok='rt: ok; handles allowed: none; must-fail edits: 2 refused; every proof and must-fail edit was done in this run'

# rt ci prints the file `said`, changes the tree by `change.sh` and ends with the status in `status`, and it leaves a program and a library as it does.
# rt lib and rt run say that they were called, and make what they do.
mkdir -p "$scratch/bin" "$scratch/kit/bin"
cat >"$scratch/bin/rt" <<'END'
#!/bin/sh
here=$(dirname "$0")/..
case $1 in
ci)
    cat "$here/said"
    for name in qr page; do
        mkdir -p crates/$name/out
        echo "$name of rt ci" >crates/$name/out/$name
    done
    mkdir -p crates/hubqr/out/rlib/hubqr.rlib
    : >crates/hubqr/out/rlib/hubqr.rlib/format
    sh "$here/change.sh"
    exit "$(cat "$here/status")"
    ;;
doc) echo "$here/kit/START-HERE.md" ;;
lib) mkdir -p out && echo 'archive of rt lib' >out/libhubqr_c.a ;;
run) mkdir -p out && echo "$(basename "$PWD") of rt run" >"out/$(basename "$PWD")" ;;
esac
END
# rattle build -o FILE, over the libraries of rt ci
cat >"$scratch/kit/bin/rattle" <<'END'
#!/bin/sh
while [ "$1" != -o ]; do
    [ "$1" != --extern ] || echo "$2"
    shift
done
echo 'archive over what rt ci left' >"$2"
END
chmod +x "$scratch/bin/rt" "$scratch/kit/bin/rattle"
PATH=$scratch/bin:$PATH

# tree: a new one, where rt ci passes.
tree() {
    rm -rf "$scratch/tree"
    mkdir -p "$scratch/tree/tools"
    cd "$scratch/tree" || exit 1
    cp "$top/tools/prove.sh" "$top/tools/build.sh" "$top/tools/sum.sh" tools/
    printf '# all\nhubqr: std\nhubqr_c staticlib: hubqr std # exported\nqr: hubqr\npage:\n' >crates.txt
    for name in hubqr hubqr_c qr page; do
        mkdir -p crates/$name/src
        echo "// $name" >crates/$name/src/lib.rt
    done
    printf '%s\n4 passed, 0 failed\n' "$ok" >"$scratch/said"
    : >"$scratch/change.sh"
    echo 0 >"$scratch/status"
}

# proves: it does, and build/ci.log ends with the verdict.
proves() {
    told=$(sh tools/prove.sh 2>&1) || fail "it does not prove: $told"
    [ "$(tail -n 1 build/ci.log)" = '4 passed, 0 failed' ] || fail "build/ci.log does not end with the verdict"
    passed=$((passed + 1))
}

# refuses TEXT: it does not prove, says a text, and nothing is built.
refuses() {
    told=$(sh tools/prove.sh 2>&1) && fail "it proves what it should not: $1"
    case $told in
    *"$1"*) ;;
    *) fail "'$1' is not said: $told" ;;
    esac
    for name in ci.sum libhubqr.a qr page; do
        [ ! -e "build/$name" ] || fail "build/$name is there, and $1"
    done
    passed=$((passed + 1))
}

# built NAME TEXT: build/NAME holds it.
built() {
    [ "$(cat "build/$1")" = "$2" ] || fail "build/$1 is '$(cat "build/$1")', and not '$2'"
    passed=$((passed + 1))
}

tree
proves
built libhubqr.a 'archive over what rt ci left'
built qr 'qr of rt ci'
built page 'page of rt ci'
grep -q 'hubqr=../hubqr/out/rlib/hubqr.rlib' build/libhubqr.a.log || fail 'the archive is not made over the library'

# what stood in build/ is made anew, and goes where rt ci fails
echo old >build/qr
proves
built qr 'qr of rt ci'
echo 1 >"$scratch/status"
echo '3 passed, 1 failed' >"$scratch/said"
refuses '3 passed, 1 failed'

for line in '2 refused, 1 bad; every' '2 refused, 1 of them only by a limit, 12 bad; done'; do
    tree
    printf 'rt: ok; handles allowed: none; must-fail edits: %s\n4 passed, 0 failed\n' "$line" >"$scratch/said"
    refuses 'some edits of must-fail/ cannot be applied or read'
done

tree
echo '4 passed, 0 failed' >"$scratch/said"
refuses 'has no line `rt: ok`'

tree
echo 'echo "// more" >>crates/hubqr/src/lib.rt' >"$scratch/change.sh"
refuses 'files of crates/ changed while rt ci ran'

# where a source has changed since, a library is rt's own or a program is gone, rt builds it
tree
proves
echo '// more' >>crates/hubqr/src/lib.rt
for name in libhubqr.a qr; do
    sh tools/build.sh $name >/dev/null || fail "$name is not built"
done
built libhubqr.a 'archive of rt lib'
built qr 'qr of rt run'
proves
: >crates/hubqr/out/rlib/stamp
sh tools/build.sh libhubqr.a >/dev/null || fail 'the archive is not built'
built libhubqr.a 'archive of rt lib'
rm crates/page/out/page
sh tools/build.sh page >/dev/null || fail 'page is not built'
built page 'page of rt run'

# where the libraries of rt ci do not serve, rt lib makes the archive
tree
mv "$scratch/kit/bin/rattle" "$scratch/kit/bin/other"
proves
built libhubqr.a 'archive of rt lib'
sh tools/build.sh cases >/dev/null 2>&1 && fail 'cases is built, and nobody knows how'
cd "$top" || exit 1
echo "prove: $passed checks passed"
