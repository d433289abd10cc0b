#!/bin/sh
# The archive rests on proofs alone and is made of the sources alone, so that whoever builds it gets the same bytes:
#   no member has a time, an owner or a mode of its own, and no text in it names this folder or one like it
#   its instructions on floats round one operation each, as the proofs have it: none is fused, and none is of the x87, which keeps more bits
#   made a second time, from what has been proved, it is the same byte for byte
#   and the line of its proof, the only one that counts what the crates below assume as well, counts no axiom and no foreign function, and names
#   no processor that it needs
# Two folders are not compared here: that would prove every crate a second time. Run from anywhere; the exports are proved again, in seconds.
set -u
cd "$(dirname "$0")/.." || exit 1
export LC_ALL=C
archive=build/libhubqr.a
first=build/archive.first

fail() {
    echo "archive: FAILED: $1" >&2
    exit 1
}

[ -f "$archive" ] || fail "$archive is not there: run \`make $archive\`"
TZ=UTC ar tv "$archive" >build/archive.members || fail "ar cannot read $archive"
bad=$(grep -v -E '^rw-r--r-- 0/0 +[0-9]+ Jan +1 00:00 1970 ' build/archive.members)
[ -z "$bad" ] || fail "a member has a time, an owner or a mode of its own: $bad"
for text in "$PWD" "$(pwd -P)" /home/ /opt/ /root/ /tmp/ /usr/; do
    grep -q -a -F -e "$text" "$archive" && fail "it holds '$text'"
done
objdump -d --no-show-raw-insn "$archive" | awk -F '\t' 'NF > 1 { sub(/ .*/, "", $2); print $2 }' | sort -u >build/archive.instructions
bad=$(grep -E '^(f|vf|v4f)' build/archive.instructions)
[ -z "$bad" ] || fail "an instruction is fused or of the x87: $bad"
for name in sub mul div; do
    grep -q -E "^v?$name[sp]d\$" build/archive.instructions || fail "no instruction is ${name}sd, so objdump has not shown all of it"
done
mv "$archive" "$first" || exit 1
sh tools/build.sh libhubqr.a || fail 'it cannot be made a second time'
cmp "$first" "$archive" || fail 'made a second time it has other bytes'
# The first one again, with its time, so that nothing is built anew for it.
mv "$first" "$archive" || exit 1
verdict=$(grep '^logic=' build/libhubqr.a.log | tail -n 1)
case $verdict in
*' axioms='* | *' foreign='*) fail "it rests on what is assumed: $verdict" ;;
*' cpu='*) fail "it is not for every x86-64: $verdict" ;;
'logic=proved '*) ;;
*) fail "there is no verdict of its proof: $verdict" ;;
esac
echo "archive: no axiom, no fused operation, the same bytes when made twice, $(wc -c <"$archive") of them, without a time or a folder"
