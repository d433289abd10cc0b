#!/bin/sh
# What `make run` shows fits a window of 100 columns, has no zero with a sign, has the verdict and the weights and ends in the page; and a wrong result
# is not let pass.
# Usage: examples/test-run.sh QR PAGE RECORD    from the top of the repository
set -u
export LC_ALL=C
qr=$1
page=$2
record=$3
script=run
. tools/checks.sh

sh examples/run.sh "$qr" "$page" "$record" "$scratch/result" >"$scratch/shown" 2>"$scratch/messages" || fail "make run does not end with status 0"
[ ! -s "$scratch/messages" ] || fail "make run prints a message: $(cat "$scratch/messages")"
wide=$(awk 'length > 100' "$scratch/shown")
[ -z "$wide" ] || fail "make run prints a line of more than 100 columns: $wide"
grep -q -E -e '-0\.0*( |$)' "$scratch/shown" && fail "make run prints a zero with a sign"
for text in '1. What a hub heard' '2. What the proved program makes of it' '3. Is it right?' '4. What the modem makes of it' '5. The page for the fitter' \
    '# row 7, antennas 4 to 7' 'R in steps' 'Q in parts' 'Q times R from ' "products of Q's rows from " "products of R's columns from " \
    'weights w: R times w = '; do
    grep -q -F -e "$text" "$scratch/shown" || fail "make run does not print '$text'"
    passed=$((passed + 1))
done
grep -q -x -F 'yes: Q times R and the rows of Q are within their limits' "$scratch/shown" || fail "make run does not print the verdict"
grep -q OUTSIDE "$scratch/shown" && fail "make run shows a figure outside its limit"
grep -q '^ *7 *-26387-19427i  *-4\.859' "$scratch/shown" || fail "make run does not print the weight of antenna 7"
tail -n 16 "$scratch/shown" >"$scratch/page"
cut -c 1-96 examples/results/hermitian.txt | cmp - "$scratch/page" || fail "make run does not end in the page of the result"

# The result of another record is a result, and not the one of this record.
printf '#!/bin/sh\nexec "%s" < "%s"\n' "$PWD/$qr" "$PWD/examples/records/extremes.bin" >"$scratch/wrong"
chmod +x "$scratch/wrong"
sh examples/run.sh "$scratch/wrong" "$page" "$record" "$scratch/result" >"$scratch/shown" 2>&1 && fail "make run takes the result of another record"
[ "$(tail -n 1 "$scratch/shown")" = 'no: Q times R or the rows of Q are outside their limits' ] || fail "make run does not say that a result is wrong"
passed=$((passed + 1))
echo "run: $passed checks passed"
