#!/bin/sh
# Runs the C and the Rust program that make a matrix of snapshots and factor it, from the top of the repository, and compares what they print and
# their exit status, and the records that they write with what other programs make of the same snapshots.
# Usage: examples/test-snapshots.sh C_PROGRAM RUST_PROGRAM QR RECORD
set -u
export LC_ALL=C

if [ $# -ne 4 ]; then
    echo "usage: examples/test-snapshots.sh C_PROGRAM RUST_PROGRAM QR RECORD" >&2
    exit 2
fi
c_program=$1
rust_program=$2
qr=$3
record=$4
hall=examples/snapshots/hall.txt
fits='1 2 3 4 5 6 7 8 9 10 11 12 13 14 15 16'
script=snapshots
. tools/checks.sh
. examples/twins.sh

# sixteen NUMBER: a snapshot with this number in all its parts.
sixteen() {
    awk -v number="$1" 'BEGIN { for (k = 1; k <= 16; k++) printf "%s%s", number, k < 16 ? " " : "\n" }'
}

# matrix: the matrix of the snapshots that stand in standard input, as a text for `record pack`: part by part, the sum divided by 65,536 times the
# count, toward zero, and clamped at 32,767.
matrix() {
    awk '
    function part(sum) { sum = int(sum / (65536 * count)); return sum > 32767 ? 32767 : sum }
    { sub(/\r$/, "") }
    NF == 0 || /^#/ { next }
    {
        count++
        for (i = 1; i < 16; i += 2) for (j = 1; j < 16; j += 2) {
            re[i, j] += $i * $j + $(i + 1) * $(j + 1)
            im[i, j] += $(i + 1) * $j - $i * $(j + 1)
        }
    }
    END { for (i = 1; i < 16; i += 2) for (j = 1; j < 16; j += 2) printf "%d%+di%s", part(re[i, j]), part(im[i, j]), j < 15 ? " " : "\n" }'
}

# records FILE: both programs write the same two records, the matrix record is that of `matrix`, and qr makes the result record of it, which `record
# check` finds right.
records() {
    run c "$c_program" "$1" "$scratch/c.matrix" "$scratch/c.result"
    run rust "$rust_program" "$1" "$scratch/rust.matrix" "$scratch/rust.result"
    for name in c rust; do
        [ "$(cat "$scratch/$name.status")" = 0 ] || fail "$name does not write the records of $1: $(cat "$scratch/$name.err")"
    done
    cmp -s "$scratch/c.matrix" "$scratch/rust.matrix" || fail "C and Rust write different matrix records of $1"
    cmp -s "$scratch/c.result" "$scratch/rust.result" || fail "C and Rust write different result records of $1"
    matrix <"$1" | "$record" pack - "$scratch/packed" >"$scratch/said" 2>&1 || fail "record makes no matrix record of $1: $(cat "$scratch/said")"
    cmp -s "$scratch/c.matrix" "$scratch/packed" || fail "the matrix record is not that of the snapshots in $1"
    "$qr" <"$scratch/c.matrix" >"$scratch/result" || fail "qr does not end with status 0 on the matrix record of $1"
    cmp -s "$scratch/c.result" "$scratch/result" || fail "qr makes another result record of the matrix record of $1"
    "$record" check "$scratch/c.matrix" "$scratch/c.result" >"$scratch/said" 2>&1 || fail "the result record of $1 is wrong: $(cat "$scratch/said")"
    tail -n 1 "$scratch/said" | grep -q '^yes: ' || fail "record does not say that the result record of $1 is right"
    grep -q OUTSIDE "$scratch/said" && fail "record shows a figure of the result record of $1 outside its limit"
    passed=$((passed + 1))
}

# wrong LINE: neither program takes this line between two snapshots.
wrong() {
    printf '# a remark\n%s\n%s\n%s\n' "$fits" "$1" "$fits" >"$scratch/wrong.txt"
    check 1 "$scratch/wrong.txt: line 3 is not 16 whole numbers from -32768 to 32767" "$scratch/wrong.txt"
}

# refuses TEXT FILE: both programs say TEXT and write no record.
refuses() {
    check 1 "$1" "$2" "$scratch/no.matrix" "$scratch/no.result"
    [ ! -e "$scratch/no.matrix" ] && [ ! -e "$scratch/no.result" ] || fail "a record of $2 is written"
}

check 0 'snapshots added: 64'
check 0 'heard antennas: 0 1 2 3 4 5 6 7' $hall
records $hall
printf '# antennas 2 and 5, and 3 just too quiet\r\n \t\r\n0 0 0 0 +16384 -00 1055 0\t0 0  0 -16384 0 0 0 0' >"$scratch/one.txt"
check 0 'snapshots added: 1' "$scratch/one.txt"
check 0 'diagonal: 0 0 4096 16 0 4096 0 0' "$scratch/one.txt"
check 0 'heard antennas: 2 5' "$scratch/one.txt"
records "$scratch/one.txt"
# Twice the square of 747, divided by 65,536, is just above 17; that of 746, which is refused below, falls short of it.
sixteen 747 >"$scratch/quiet.txt"
check 0 'diagonal: 17 17 17 17 17 17 17 17' "$scratch/quiet.txt"
check 0 'heard antennas: 0 1 2 3 4 5 6 7' "$scratch/quiet.txt"
records "$scratch/quiet.txt"
sixteen -32768 >"$scratch/lowest.txt"
check 0 'diagonal: 32767 32767 32767 32767 32767 32767 32767 32767' "$scratch/lowest.txt"
records "$scratch/lowest.txt"
yes "$(sixteen 32767)" | head -n 4096 >"$scratch/most.txt"
check 0 'snapshots added: 4096' "$scratch/most.txt"
records "$scratch/most.txt"

{ cat "$scratch/most.txt" && echo "$fits"; } >"$scratch/more.txt"
refuses 'refused with number 10: 4,096 snapshots have been added already' "$scratch/more.txt"
: >"$scratch/empty.txt"
refuses 'refused with number 9: no snapshot has been added' "$scratch/empty.txt"
printf '\n# nothing\n' >"$scratch/remarks.txt"
refuses 'refused with number 9: no snapshot has been added' "$scratch/remarks.txt"
for unheard in 0 256 746; do
    sixteen $unheard >"$scratch/unheard.txt"
    refuses 'refused with number 4: no antenna was heard' "$scratch/unheard.txt"
done
refuses 'No such file' "$scratch/absent.txt"
refuses 'Is a directory' "$scratch"
refuses 'not a text of less than 1 MiB' examples/records/zeros.bin
refuses 'not a text of less than 1 MiB' /dev/zero
wrong "${fits% 16}"
wrong "$fits 17"
wrong "${fits% 16} 32768"
wrong "-32769 ${fits#1 }"
wrong "${fits% 16} 18446744073709551632"
wrong "${fits% 16} 1.5"
wrong "${fits% 16} -"
wrong "${fits% 16} 0x10"
echo "${fits% 16}" >"$scratch/few.txt"
refuses 'line 1 is not 16 whole numbers' "$scratch/few.txt"
check 1 'No such file' $hall "$scratch/absent/matrix" "$scratch/result"
check 1 'No space left' $hall "$scratch/packed" /dev/full
check 2 'usage: ' $hall "$scratch/no.matrix"
check 2 'usage: ' one two three four
check_full
echo "snapshots: $passed checks passed"
