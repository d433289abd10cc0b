#!/bin/sh
# Runs the C and the Rust program that keep a log of a hub's days, from the top of the repository, and compares what they print, their exit status
# and the logs that they write, the entries with those that stay by the rule, and the logs with what `record log` lists.
# Usage: examples/test-log.sh C_PROGRAM RUST_PROGRAM QR RECORD
set -u
export LC_ALL=C

if [ $# -ne 4 ]; then
    echo "usage: examples/test-log.sh C_PROGRAM RUST_PROGRAM QR RECORD" >&2
    exit 2
fi
c_program=$1
rust_program=$2
qr=$3
record=$4
records=examples/records
results=examples/results
script=log
. tools/checks.sh
. examples/twins.sh

# due RESULTS DAYS: what is printed after so many days by the rule, where RESULTS says whether results are accepted, 1, or refused, 0. The last sweep
# is on the last day.
due() {
    awk -v results="$1" -v days="$2" '
    function entry(kind, day, stays, size) {
        if (last >= day + stays) return
        print day " kind " kind ", " size " bytes"
        used += 5 + size
        entries++
    }
    BEGIN {
        first = 20000
        last = first + days - 1
        for (day = first; day <= last; day++) {
            if (!results) print "day " day ": result refused with 2"
        }
        for (day = first; day <= last; day++) {
            entry(7, day, 90, 1)
            if (day % 3 == 0) entry(6, day, 30, 1)
            if (results) entry(5, day, 7, 2049)
        }
        print used + 0 " of 16384 bytes used, " entries + 0 " entries"
    }'
}

# listed ARGUMENT...: both programs have written the same log, and `record log` lists as many entries and bytes as the last line that was printed on
# these arguments says.
listed() {
    cmp -s "$scratch/c.bin" "$scratch/rust.bin" || fail "C and Rust write different logs on: $*"
    "$record" log "$scratch/c.bin" >"$scratch/said" 2>"$scratch/fault" || fail "record log refuses the log of $*: $(cat "$scratch/fault")"
    numbers=$(sed -n '$s/^\([0-9]*\) of 16384 bytes used, \([0-9]*\) entries$/\2 \1/p' "$scratch/c.out")
    [ "$(tail -n 1 "$scratch/said" | tr -dc '0-9 \n' | awk '{ print $1, $2 }')" = "$numbers" ] || fail "record log counts otherwise on: $*"
    [ "$(wc -c <"$scratch/c.bin")" -eq "${numbers#* }" ] || fail "the log has not the bytes that are said to be used on: $*"
}

# keeps RESULTS FILE DAYS: both programs print what is due, and write the same log.
keeps() {
    due "$1" "$3" >"$scratch/due"
    check 0 ' of 16384 bytes used, ' "$2" "$3"
    sed 's/^\(day .* refused with 2\): .*/\1/' "$scratch/c.out" | cmp -s - "$scratch/due" || fail "other lines are printed on: $2 $3"
    [ ! -s "$scratch/c.err" ] || fail "something is said on: $2 $3"
    for name in c rust; do
        if [ $name = c ]; then program=$c_program; else program=$rust_program; fi
        "$program" "$2" "$3" "$scratch/$name.bin" >"$scratch/$name.again" || fail "$name does not end with status 0 on: $2 $3 OUT"
        cmp -s "$scratch/$name.out" "$scratch/$name.again" || fail "$name prints other lines where it writes a log on: $2 $3"
    done
    listed "$2" "$3"
    passed=$((passed + 2))
}

# bytes OFFSET COUNT TEXT: the log written last has these bytes there, as od prints them.
bytes() {
    [ "$(od -An -v -tx1 -j "$1" -N "$2" "$scratch/c.bin")" = " $3" ] || fail "the log has not the bytes $3 at $1"
    passed=$((passed + 1))
}

# printed TEXT FILE DAYS: both programs print these lines, no more and no less.
printed() {
    printf "$1" >"$scratch/lines"
    check 0 '' "$2" "$3"
    cmp -s "$scratch/lines" "$scratch/c.out" || fail "other lines are printed on: $2 $3"
}

for name in hermitian loose-plug extremes single; do
    "$qr" <$records/$name.bin >"$scratch/$name" || fail "qr does not end with status 0 on $name.bin"
    keeps 1 "$scratch/$name" 100
done

# Days around those on which the first result, refusal and heard byte go, and a long time.
result=$scratch/hermitian
for days in 0 1 2 3 7 8 9 30 31 32 33 89 90 91 92 365 9999; do
    keeps 1 "$result" $days
    keeps 0 $results/short.bin $days
done
keeps 1 "$result" 0100

# The lines and the bytes of some of them. Day 20,001 is the first that is divisible by 3.
printed '0 of 16384 bytes used, 0 entries\n' "$result" 0
first='20000 kind 7, 1 bytes\n20000 kind 5, 2049 bytes\n'
second='20001 kind 7, 1 bytes\n20001 kind 6, 1 bytes\n20001 kind 5, 2049 bytes\n'
printed "${first}2060 of 16384 bytes used, 2 entries\n" "$result" 1
printed "$first${second}4126 of 16384 bytes used, 5 entries\n" "$result" 2
check 0 '14432 of 16384 bytes used, 16 entries' "$result" 7
check 0 '14444 of 16384 bytes used, 18 entries' "$result" 8
check 0 '14978 of 16384 bytes used, 107 entries' "$result" 100
keeps 1 "$result" 2
bytes 0 6 '07 00 00 4e 20 ff'
bytes 6 6 '05 00 00 4e 20 02'
bytes 2060 12 '07 00 00 4e 21 0f 06 00 00 4e 21 04'
bytes 2072 6 '05 00 00 4e 21 02'
tail -c 2049 "$scratch/c.bin" | cmp -s - "$result" || fail "the log does not end in the result"
keeps 1 "$result" 100
bytes 0 12 '07 00 00 4e 2a ff 07 00 00 4e 2b 0f'

# Any bytes of the right length are kept, and others are refused each day, which leaves the log as it is.
length="the record's length is not 257 bytes for a matrix or 2,049 bytes for a result, or a log entry's body has not the length of its kind"
keeps 1 $results/under-diagonal.bin 10
dd if=/dev/zero of="$scratch/zeros" bs=2049 count=1 2>/dev/null || fail "dd cannot write"
keeps 1 "$scratch/zeros" 10
printed "day 20000: result refused with 2: $length\n20000 kind 7, 1 bytes\n6 of 16384 bytes used, 1 entries\n" $results/long.bin 1
for other in $results/empty.bin $results/matrix.bin $results/long.bin /dev/null /dev/zero; do
    keeps 0 $other 100
    check 0 "day 20099: result refused with 2: $length" $other 100
done

# What cannot be read leaves nothing printed, and what cannot be written is said behind the lines.
check 1 "log: $scratch/absent: No such file or directory" "$scratch/absent" 10
[ ! -s "$scratch/c.out" ] || fail "lines are printed where the file cannot be read"
check 1 "log: $scratch: Is a directory" "$scratch" 10
check 1 'No such file or directory' "$scratch/$(printf '\377')" 10
for out in "$scratch/absent/log.bin" "$scratch" /dev/full; do
    check 1 "log: $out: " "$result" 10 "$out"
    check 1 ' of 16384 bytes used, ' "$result" 10 "$out"
done
check 1 'log: /dev/full: No space left on device' "$result" 1 /dev/full
check 2 'usage: log FILE DAYS [OUT]    DAYS of at most 4 digits'
check 2 'usage: ' "$result"
check 2 'usage: ' "$result" 10 "$scratch/c.bin" more
for days in '' x -1 +1 1.5 1e3 0x10 ' 1' '1 ' 10000 00001 99999999999999999999; do
    check 2 'usage: ' "$result" "$days"
done
check_full "$result" 10
echo "log: $passed checks passed"
