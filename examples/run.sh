#!/bin/sh
# Shows the product at work: a sample record, what the program `qr` makes of it, whether that is right, and the weights and the page of it. Ends with 0 when
# it is right.
# Usage: examples/run.sh QR PAGE RECORD RESULT    the programs qr, page and record, and the file for the result; from the top of the repository
set -eu
qr=$1
page=$2
record=$3
result=$4
sample=examples/records/hermitian.bin
targets=examples/targets/weakest.txt

echo '1. What a hub heard: the covariance of three machines and some noise at its eight antennas.'
echo "   $ $record show $sample"
echo
"$record" show "$sample"
echo
echo '2. What the proved program makes of it: R and Q of the matrix, worked as a real one of 16 by 16.'
echo "   $ $qr < $sample > $result"
echo "   $ $record show $result"
echo
"$qr" <"$sample" >"$result"
"$record" show "$result"
echo
echo '3. Is it right? From the two records alone, in exact whole numbers: Q times R has to be the input,'
echo '   and the rows of Q orthogonal. The last line is the answer of the proved call, hubqr_verify. For'
echo "   results of qr, the products of R's columns are those of the input's as well."
echo "   $ $record check $sample $result"
echo
"$record" check "$sample" "$result"
echo
echo '4. What the modem makes of it: the weights of the antennas, which solve matrix times w = targets.'
echo '   The targets are the wave of the weakest machine, so that these weights make a beam to it. The'
echo '   independent implementation works them out; the proved call, hubqr_weights, gives the same bits.'
echo "   $ $record weights $result $targets"
echo
"$record" weights "$result" "$targets"
echo
echo '5. The page for the fitter, by the proved program page: R in 16 lines of 16 words, 12 columns each.'
echo '   A word is 8,192 times R in steps, as 2 shows it. A line has 192 characters: cut keeps eight'
echo '   of its words, and without cut all are printed.'
echo "   $ $page < $result | cut -c 1-96"
echo
"$page" <"$result" | cut -c 1-96
