#!/bin/sh
# Runs the C and the Rust program that serve eight sectors by a desk, from the top of the repository, and compares what they print and their exit
# status, the turns that are granted with those that the rule gives, the rounds that a sector takes with those that its share promises, when the
# matrix that comes early is loaded, and what a viewer and a fitter get before that.
# Usage: examples/test-desk.sh C_PROGRAM RUST_PROGRAM
set -u
export LC_ALL=C

if [ $# -ne 2 ]; then
    echo "usage: examples/test-desk.sh C_PROGRAM RUST_PROGRAM" >&2
    exit 2
fi
c_program=$1
rust_program=$2
records=examples/records
script=desk
. tools/checks.sh
. examples/twins.sh

# The shares of sectors 0 to 7, and the sector that requests 120 in each round, twice; the others request their share. For the early one the last
# record is handed in again in round 2, before the Runs.
shares='35 10 10 10 10 25 10 10'
greedy=5
early=0

# granted NEXT SECTOR...: the rows of the table for these sectors, loaded, by the rule: the round, what is granted to each of the eight, - to one that
# is finished or was never loaded, and 13 where the greedy one requests more for an unfinished job. With NEXT 1 the matrix that comes early is
# accepted: behind an unfinished job it waits until the round in which that is finished, otherwise it is loaded.
granted() {
    next_matrix=$1
    shift
    awk -v loaded="$*" -v shares="$shares" -v greedy="$greedy" -v early="$early" -v next_matrix="$next_matrix" '
    function least(a, b) { return a < b ? a : b }
    function unfinished(    k, n) {
        for (k = 1; k <= 8; k++) n += turn[k] < 120
        return n
    }
    BEGIN {
        early++
        split(shares, share, " ")
        sectors = split(loaded, sector, " ")
        for (k = 1; k <= 8; k++) turn[k] = 120
        for (i = 1; i <= sectors; i++) turn[sector[i] + 1] = 0
        for (round = 1; unfinished(); round++) {
            row = round
            refused = ""
            if (round == 2 && next_matrix) {
                waits = turn[early] < 120
                if (!waits) turn[early] = 0
            }
            for (k = 1; k <= 8; k++) {
                if (turn[k] == 120) { row = row " -"; continue }
                count = least(k - 1 == greedy ? 120 : share[k], least(share[k], 120 - turn[k]))
                turn[k] += count
                row = row " " count
                if (k - 1 == greedy && turn[k] < 120) refused = " 13"
            }
            print row refused
            if (waits && turn[early] == 120) turn[early] = waits = 0
        }
    }'
}

# rounds SECTOR: what is said of the rounds that the sector took, which are all that its share promises: 120 divided by it, rounded up.
rounds() {
    echo "$shares" | awk -v k="$1" '{ s = $(k + 1); n = int((120 + s - 1) / s); print "share " s ", finished in " n " rounds of at most " n }'
}

# has COUNT TEXT: TEXT ends that many lines of what was printed last.
has() {
    [ "$(grep -c -e "$2\$" "$scratch/c.out")" = "$1" ] || fail "not $1 lines end in '$2'"
    passed=$((passed + 1))
}

# serves NEXT 'SECTOR...' RECORD...: both programs load these sectors at first, the table is that of the rule, and each result is right. NEXT says
# what becomes of the matrix that comes early: it `waits` behind that of its sector, is `loaded` since its sector has none, is `refused`, or comes
# `never`, since there is no round 2.
serves() {
    next=$1
    sectors=$2
    shift 2
    check 0 'sector 8: refused with number 12: the sector is above 7' "$@"
    case $next in waits | loaded) accepted=1 ;; *) accepted=0 ;; esac
    granted $accepted $sectors >"$scratch/expected"
    awk '/^ *[0-9]/ { $1 = $1; print }' "$scratch/c.out" >"$scratch/table"
    cmp -s "$scratch/expected" "$scratch/table" || fail "the table is not that of the rule for the sectors $sectors"
    [ "$next" != loaded ] || sectors="$early $sectors"
    results=$(echo $sectors | wc -w)
    has $((8 - results)) 'heard byte 00, never loaded'
    [ "$next" != waits ] || results=$((results + 1))
    has $((results)) ', the result is the one that Whole makes'
    for sector in $sectors; do
        grep -q "^sector $sector: heard byte .., [0-9]* turns made, $(rounds "$sector"), the result is the one" "$scratch/c.out" ||
            fail "sector $sector has no result, or has it in other rounds"
    done
    follows_round "$next"
}

# follows_round NEXT: what is printed of the matrix that comes early stands where it should: that it waits, is loaded or is refused behind round 1,
# and that it is brought in behind the first result of its sector, which stands behind the round that finishes the job, and behind what a viewer and
# a fitter get of it, who bring nothing in.
follows_round() {
    said="$(awk -v early="$early" '
    / refused$/ { table = 1 }
    table && /^$/ { exit }
    table && /^ *[0-9]/ { row = $1 }
    table && $0 ~ "^(sector|(viewer|fitter) of sector) " early ": " {
        what = $0
        sub(/^viewer .*/, "viewer", what)
        sub(/^fitter .*/, "fitter", what)
        sub(/.*: brought in, .*/, "brought in", what)
        sub(/.*: (waits|loaded), .*/, "handed in", what)
        sub(/.*: refused with .*/, "refused", what)
        sub(/.*, the result is .*/, "result", what)
        printf "%s%s after %s", separator, what, row
        separator = ", "
    }' "$scratch/c.out")"
    case $1 in
    waits) expected='handed in after 1, viewer after 4, fitter after 4, result after 4, brought in after 4' ;;
    loaded) expected='handed in after 1' ;;
    refused) expected='refused after 1' ;;
    never) expected='' ;;
    esac
    [ "$said" = "$expected" ] || fail "of the matrix that comes early is said: $said"
    passed=$((passed + 1))
}

serves waits '0 1 2 3 5 6 7'
check 0 "sector 4: $records/zeros.bin: refused with number 4: no antenna was heard"
check 0 'shares 35 15 15 15 15 25 15 15: refused with number 14: the shares are above 120 in total'
check 0 'shares 35 10 10 10 10 25 10 10: set'
check 0 'number 13: turns are requested for an unfinished job, and the sector has none left in the round'
check 0 '    1   35   10   10   10    -   25   10   10       13'
# The jobs of sectors 0 and 5 have less left than the share.
check 0 '    4   15   10   10   10    -   25   10   10       13'
check 0 '    5   35   10   10   10    -   20   10   10'
check 0 '    9    -   10   10   10    -    -   10   10'
check 0 'sector 1: heard byte DF, 120 turns made, share 10, finished in 12 rounds of at most 12, the result is the one that Whole makes'
# All turns of this matrix are skipped, and the sector's count pays for them all the same.
check 0 'sector 3: heard byte 01, 0 turns made, share 10, finished in 12 rounds of at most 12, the result is the one that Whole makes'
# The heard byte changes when the matrix that waits is brought in, and with the result of the first it is that of the first.
check 0 "sector 0: $records/hermitian.bin: loaded, heard byte FF"
check 0 "sector 0: $records/loose-plug.bin: waits, heard byte FF and turn number 35 as they stand"
check 0 'viewer of sector 0: heard byte FF, and the result is refused with number 15: the call is not allowed to this role'
check 0 'fitter of sector 0: the result, fetched twice, is the one that Whole makes, and the next matrix goes on waiting'
check 0 'sector 0: heard byte FF, 120 turns made, share 35, finished in 4 rounds of at most 4, the result is the one that Whole makes'
check 0 "sector 0: $records/loose-plug.bin: brought in, heard byte DF"
check 0 'sector 0: heard byte DF, 120 turns made, share 35, finished in 4 rounds of at most 4, the result is the one that Whole makes'
serves waits 0 $records/hermitian.bin
serves waits '0 1' $records/extremes.bin $records/single.bin
every=$records/loose-plug.bin
serves waits '0 1 2 3 4 5 6 7' $every $every $every $every $every $every $every $every

printf '\001' >"$scratch/short.bin"
{ cat $records/hermitian.bin && printf '\000'; } >"$scratch/long.bin"
serves loaded '1 5' $records/README.md $every "$scratch/short.bin" "$scratch/long.bin" $records/hum.bin $every
check 0 "sector 0: $records/README.md: refused with number 1: " $records/README.md
check 0 "sector 1: $scratch/short.bin: refused with number 2: " $every "$scratch/short.bin"
check 0 "sector 0: $scratch/long.bin: refused with number 2: " "$scratch/long.bin"
serves never '' /dev/null
serves refused 0 $every $records/hum.bin
check 0 "sector 0: $records/hum.bin: refused with number 4: " $every $records/hum.bin
serves refused '0 2' $every $records/zeros.bin $every "$scratch/long.bin"
serves refused 1 $records/hum.bin $every /dev/null
check 1 'No such file' $every "$scratch/absent.bin"
check 1 'Is a directory' "$scratch"
check 2 'usage: ' $every $every $every $every $every $every $every $every $every
check_full
echo "desk: $passed checks passed"
