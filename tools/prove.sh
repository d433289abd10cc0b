#!/bin/sh
# Proves every crate, tries every wrong program and runs each program: `rt ci`, at the top of the tree as it stands, with nothing taken away before
# it. rt itself trusts nothing that earlier runs left in crates/*/out. Then makes build/libhubqr.a, build/qr and build/page of what was proved.
#   build/ci.log    what rt ci said; its last line is the verdict, N passed, 0 failed
#   build/ci.sum    the sum of the files that it proved, where it passed: tools/build.sh takes what rt ci left only while they stay the same
# An edit that cannot be applied or read counts for nothing and fails no `rt ci`; here it does.
set -u
cd "$(dirname "$0")/.." || exit 1
export LC_ALL=C
mkdir -p build
sum=$(sh tools/sum.sh) || exit 1
# The status goes by a file, since that of a pipe is tee's: 1 until rt ci has ended.
echo 1 >build/ci.status
{ rt ci 2>&1; echo $? >build/ci.status; } | tee build/ci.log
rm -f build/ci.sum build/libhubqr.a build/qr build/page
status=$(cat build/ci.status)
[ "$status" -eq 0 ] || exit "$status"
line=$(grep '^rt: ok' build/ci.log) || { echo 'prove: rt ci ended well and has no line `rt: ok`' >&2 && exit 1; }
if echo "$line" | grep -q ', [1-9][0-9]* bad'; then
    echo "prove: some edits of must-fail/ cannot be applied or read, so they show nothing: $line" >&2
    exit 1
fi
if [ "$(sh tools/sum.sh)" != "$sum" ]; then
    echo 'prove: files of crates/ changed while rt ci ran: run it again' >&2
    exit 1
fi
echo "$sum" >build/ci.sum
for name in libhubqr.a qr page; do
    sh tools/build.sh "$name" || exit 1
done
