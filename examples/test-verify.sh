#!/bin/sh
# Runs the C and the Rust program that ask whether results are right for a matrix, from the top of the repository, and compares what they print and
# their exit status, and the status with that of `record verify`.
# Usage: examples/test-verify.sh C_PROGRAM RUST_PROGRAM QR RECORD
set -u
export LC_ALL=C

if [ $# -ne 4 ]; then
    echo "usage: examples/test-verify.sh C_PROGRAM RUST_PROGRAM QR RECORD" >&2
    exit 2
fi
c_program=$1
rust_program=$2
qr=$3
record=$4
records=examples/records
results=examples/results
boards=examples/boards
script=verify
. tools/checks.sh
. examples/twins.sh

# verdict STATUS TEXT MATRIX RESULT: both programs print one line, the result's name and TEXT, and end with STATUS, and so does `record verify`.
verdict() {
    check "$1" "$4: $2" "$3" "$4"
    [ "$(wc -l <"$scratch/c.out")" -eq 1 ] && [ ! -s "$scratch/c.err" ] || fail "not one line is printed on: $3 $4"
    "$record" verify "$3" "$4" >"$scratch/said" 2>&1
    [ $? = "$1" ] || fail "record verify does not end with status $1 on: $3 $4"
    passed=$((passed + 1))
}

# refused NUMBER MATRIX RESULT: neither yes nor no, by this number.
refused() {
    verdict 2 "refused with number $1: " "$2" "$3"
}

# printed STATUS TEXT ARGUMENT...: both programs end with STATUS and print these lines, no more and no less.
printed() {
    printf "$2" >"$scratch/lines"
    status=$1
    shift 2
    check "$status" '' "$@"
    cmp -s "$scratch/lines" "$scratch/c.out" || fail "other lines are printed on: $*"
}

# The engine's result of each matrix, with each matrix.
for factored in hermitian loose-plug extremes single; do
    "$qr" <$records/$factored.bin >"$scratch/$factored" || fail "qr does not end with status 0 on $factored.bin"
    for heard in hermitian loose-plug extremes single; do
        if [ $heard = $factored ]; then
            verdict 0 yes $records/$heard.bin "$scratch/$factored"
        else
            verdict 1 no $records/$heard.bin "$scratch/$factored"
        fi
    done
done

# Results of boards, which are not the engine's.
cmp -s $boards/double.bin "$scratch/hermitian" && fail "$boards/double.bin is the engine's"
verdict 0 yes $records/hermitian.bin $boards/double.bin
verdict 1 no $records/hermitian.bin $boards/coarse-q.bin
verdict 0 yes $records/extremes.bin $boards/long-r.bin
verdict 1 no $records/extremes.bin $boards/double.bin
verdict 1 no $records/hermitian.bin $results/zeros.bin
verdict 1 no $records/hermitian.bin $results/extremes.bin

# Each test of the matrix, whatever the result is, and then those of the result.
dd if=$records/hermitian.bin of="$scratch/short" bs=256 count=1 2>/dev/null || fail "dd cannot copy"
cat $records/hermitian.bin $records/hermitian.bin >"$scratch/long"
cat $results/hermitian.bin $results/hermitian.bin >"$scratch/twice"
for result in $results/hermitian.bin $results/empty.bin $results/matrix.bin $results/short.bin $results/long.bin $results/under-diagonal.bin; do
    refused 1 /dev/null $result
    refused 1 $results/hermitian.bin $result
    refused 2 "$scratch/short" $result
    refused 2 "$scratch/long" $result
    refused 4 $records/hum.bin $result
    refused 4 $records/zeros.bin $result
done
refused 1 $records/hermitian.bin $results/empty.bin
refused 1 $records/hermitian.bin $results/matrix.bin
refused 1 $records/hermitian.bin $records/hermitian.bin
refused 1 $records/hermitian.bin /dev/zero
refused 2 $records/hermitian.bin $results/short.bin
refused 2 $records/hermitian.bin $results/long.bin
refused 2 $records/hermitian.bin "$scratch/twice"
refused 8 $records/hermitian.bin $results/under-diagonal.bin
refused 8 $records/hermitian.bin $results/negative-diagonal.bin
verdict 2 'refused with number 4: no antenna was heard: the real part of every diagonal element is 16 or less' $records/hum.bin $results/short.bin

# Several results: a line for each in their order, and of their statuses the worst.
matrix=$records/hermitian.bin
own=$results/hermitian.bin
yes=$boards/double.bin
no=$boards/coarse-q.bin
printed 0 "$own: yes\n$yes: yes\n$own: yes\n" $matrix $own $yes $own
printed 1 "$own: yes\n$no: no\n$yes: yes\n" $matrix $own $no $yes
empty="$results/empty.bin: refused with number 1: the record is empty or its kind byte is not the one expected, or a log has no such kind of entry"
printed 2 "$no: no\n$empty\n$yes: yes\n" $matrix $no $results/empty.bin $yes
printed 2 "$empty\n$no: no\n" $matrix $results/empty.bin $no

# What cannot be read is said, and the other results get their lines all the same; without the matrix none does.
printed 2 "$no: no\n$yes: yes\n" $matrix $no "$scratch/absent" $yes
check 2 "verify: $scratch/absent cannot be read" $matrix $no "$scratch/absent" $yes
check 2 "verify: $scratch cannot be read" $matrix "$scratch"
check 2 ' cannot be read' $matrix "$scratch/$(printf '\377')"
printed 2 '' "$scratch/absent" $own
check 2 "verify: $scratch/absent cannot be read" "$scratch/absent" $own
check 2 "verify: $scratch cannot be read" "$scratch" $own
check 2 'usage: verify MATRIX RESULT..'
check 2 'usage: verify MATRIX RESULT..' $matrix
unwritten=2
check_full $matrix $own
check_full $matrix $no
echo "verify: $passed checks passed"
