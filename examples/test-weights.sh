#!/bin/sh
# Runs the C and the Rust program that make weights of a result record and targets, from the top of the repository, and compares what they print and
# their exit status, and the weights with those that `record` prints.
# Usage: examples/test-weights.sh C_PROGRAM RUST_PROGRAM QR RECORD
set -u
export LC_ALL=C

if [ $# -ne 4 ]; then
    echo "usage: examples/test-weights.sh C_PROGRAM RUST_PROGRAM QR RECORD" >&2
    exit 2
fi
c_program=$1
rust_program=$2
qr=$3
record=$4
records=examples/records
weakest=examples/targets/weakest.txt
seven='1+1i 2+2i 3+3i 4+4i 5+5i 6+6i 7+7i'
script=weights
. tools/checks.sh
. examples/twins.sh

# result NAME: the result record of a sample record, under its name in the scratch folder.
result() {
    "$qr" <"$records/$1.bin" >"$scratch/$1" || fail "qr does not end with status 0 on $1.bin"
}

# weights RESULT TARGETS: both programs print the same weights, and to nine digits they are those of `record weights`.
weights() {
    check 0 'antenna 7: ' "$1" "$2"
    "$record" weights "$1" "$2" >"$scratch/said" 2>&1 || fail "record makes no weights of $1 and $2: $(cat "$scratch/said")"
    awk '
    function size(number) { return number < 0 ? -number : number }
    function near(a, b) { return size(a - b) <= 5.1e-9 * size(b) }
    FNR == NR { sub(":", "", $2); re[$2] = $3; im[$2] = $4; next }
    $1 in re && NF == 6 && near(re[$1], $3) && near(im[$1], $4) { agreed++ }
    END { exit agreed != 8 }' "$scratch/c.out" "$scratch/said" || fail "record prints other weights of $1 and $2"
    passed=$((passed + 1))
}

# put WORD OCTAL...: puts these four bytes into place WORD of the record $scratch/altered.
put() {
    place=$((1 + 4 * $1))
    shift
    printf "$(printf '\\%s' "$@")" | dd of="$scratch/altered" bs=1 seek="$place" conv=notrunc 2>/dev/null || fail "dd cannot write at $place"
}

# altered WORD OCTAL...: the result of the first sample record with another word, as $scratch/altered.
altered() {
    cp "$scratch/hermitian" "$scratch/altered"
    put "$@"
}

# wrong TEXT: neither program takes this text for targets.
wrong() {
    printf "$1" >"$scratch/wrong.txt"
    check 1 "$scratch/wrong.txt: not eight numbers as -123+45i, with parts from -32768 to 32767" "$scratch/hermitian" "$scratch/wrong.txt"
}

for name in hermitian loose-plug extremes single; do
    result $name
done
for name in hermitian loose-plug extremes; do
    weights "$scratch/$name" $weakest
done
check 0 'antenna 0: 3.19085846' "$scratch/hermitian" $weakest
printf '# extremes\r\n-32768+32767i\t32767-32768i #\n\n+1-0i 0+0i\v-00001+1i 16384+0i\f0-16384i#\n0+0i' >"$scratch/targets.txt"
weights "$scratch/hermitian" "$scratch/targets.txt"
# Both forms of a number: a small target gives weights that have an exponent and others that have none, and a diagonal of 1 gives huge ones.
printf '%s\n' 1+0i 0+0i 0+0i 0+0i 0+0i 0+0i 0+0i 0+0i >"$scratch/small.txt"
weights "$scratch/hermitian" "$scratch/small.txt"
check 0 'e-05 ' "$scratch/hermitian" "$scratch/small.txt"
check 0 ' 0.000' "$scratch/hermitian" "$scratch/small.txt"
cp "$scratch/hermitian" "$scratch/altered"
for i in 0 1 2 3 4 5 6 7 8 9 10 11 12 13 14 15; do
    put $((17 * i)) 000 000 000 001
done
weights "$scratch/altered" $weakest
check 0 'e+1' "$scratch/altered" $weakest
# Targets of 0 give weights of 0, but for the sign that a negative last word of R's diagonal makes.
printf '%s\n' 0+0i 0+0i 0+0i 0+0i 0+0i 0+0i 0+0i 0+0i >"$scratch/zeros.txt"
altered 255 377 377 377 377
check 0 'antenna 7: 0 -0' "$scratch/altered" "$scratch/zeros.txt"

check 1 'refused with number 1: ' $records/hermitian.bin $weakest
check 1 'refused with number 1: ' /dev/null $weakest
dd if="$scratch/hermitian" of="$scratch/short" bs=2048 count=1 2>/dev/null || fail "dd cannot copy"
check 1 'refused with number 2: ' "$scratch/short" $weakest
cat "$scratch/hermitian" "$scratch/short" >"$scratch/long"
check 1 'refused with number 2: ' "$scratch/long" $weakest
altered 16 000 000 000 001
check 1 'refused with number 8: ' "$scratch/altered" $weakest
altered 0 377 377 377 377
check 1 'refused with number 8: ' "$scratch/altered" $weakest
altered 255 000 000 000 000
check 1 'refused with number 11: ' "$scratch/altered" $weakest
check 1 "refused with number 11: one of R's 16 diagonal words is 0" "$scratch/single" $weakest

wrong ''
wrong '# nothing\n'
wrong "$seven"
wrong "$seven 8+8i 9+9i"
for number in 32768+0i 0-32769i 0+18446744073709551616i 8 8i -8i 8+i 8+8 8+8j 8+8ii 8++8i 8+-8i 8+8i, 0x8+8i 0.5+0i '8 + 8i' '(8+8i)'; do
    wrong "$seven $number"
done
check 1 'not a text of less than 64 KiB' "$scratch/hermitian" "$scratch/short"
check 1 'not a text of less than 64 KiB' "$scratch/hermitian" /dev/zero
check 1 'No such file' "$scratch/absent" $weakest
check 1 'No such file' "$scratch/hermitian" "$scratch/absent.txt"
check 1 'Is a directory' "$scratch" $weakest
check 2 'usage: '
check 2 'usage: ' "$scratch/hermitian"
check 2 'usage: ' one two three
check_full "$scratch/hermitian" $weakest
echo "weights: $passed checks passed"
