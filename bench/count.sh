#!/bin/sh
# Counts the instructions of each call with callgrind, from the top of the repository. Counts repeat where times do not.
# Usage: bench/count.sh [--markdown]. HUBQR_LIB_DIR names another folder with a libhubqr.a to count.
set -eu

if ! command -v valgrind >/dev/null; then
    echo "bench/count.sh: valgrind is not installed" >&2
    exit 1
fi
archive=${HUBQR_LIB_DIR:-build}/libhubqr.a
matrices=100
snapshots=1000
scratch=$(mktemp -d)
trap 'rm -rf "$scratch"' EXIT
# The versions in C are compiled as the benchmark compiles them. Only the weights have products and differences that could be fused.
for version in covariance weights verify desk log; do
    gcc -std=c11 -O3 -march=x86-64 -ffp-contract=off -Wall -Wextra -Iinclude -DVERSION=c -c bench/$version.c -o "$scratch/$version.o"
done
cc -std=c11 -O2 -Wall -Wextra -Iinclude -DMATRICES=$matrices -DSNAPSHOTS=$snapshots -DVERSION=c \
    bench/count.c "$scratch/covariance.o" "$scratch/weights.o" "$scratch/verify.o" "$scratch/desk.o" "$scratch/log.o" "$archive" \
    -o "$scratch/count"
# What callgrind counts of matrices of each kind, of single turns, at the desk and at the log goes into a file of that name.
for kind in full half-empty diagonal single desk loaded waiting heard result today tomorrow read; do
    valgrind --quiet --tool=callgrind --callgrind-out-file="$scratch/calls" "$scratch/count" $kind
    callgrind_annotate --inclusive=yes --threshold=100 "$scratch/calls" >"$scratch/$kind"
done
awk -v matrices=$matrices -v snapshots=$snapshots -v style="${1:-plain}" '
    function row(first, second, third, fourth) {
        if (style == "--markdown") print "| " first " | " second " | " third " |" (fourth == "" ? "" : " " fourth " |")
        else printf "%-20s %14s %10s" (fourth == "" ? "%s" : " %10s") "\n", first, second, third, fourth
    }
    function grouped(digits,    end) {
        end = length(digits) - 3
        return end > 0 ? grouped(substr(digits, 1, end)) "," substr(digits, end + 1) : digits
    }
    function whole_number(value) {
        return grouped(sprintf("%.0f", value))
    }
    function counted(call, instructions) {
        row(call, whole_number(instructions), sprintf("%.1f%%", 100 * instructions / count["whole"]))
    }
    function compared(call, engine, in_c) {
        row(call, whole_number(engine), whole_number(in_c), sprintf("%.3f", engine / in_c))
    }
    match($0, /hubqr_(load|run|fetch|whole)/) {
        name = substr($0, RSTART + 6, RLENGTH - 6) kind
        gsub(",", "", $1)
        count[name] = $1 / matrices
    }
    match($0, /(hubqr_add_snapshot|hubqr_write_matrix|c_add_by_value|c_write_by_value)/) {
        name = substr($0, RSTART, RLENGTH)
        gsub(",", "", $1)
        count[name] = $1 / snapshots
    }
    match($0, /(hubqr|c)_(weights|verify|desk_(run|set_shares|hand_in|fetch)|log_(add|sweep|next))/) {
        name = substr($0, RSTART, RLENGTH)
        if (name ~ /(hand_in|fetch|add|sweep)$/) name = name kind
        gsub(",", "", $1)
        count[name] = $1 / matrices
    }
    END {
        row("call", "instructions", "of Whole")
        if (style == "--markdown") print "|---|--:|--:|"
        counted("Load", count["load"])
        counted("Run, allowance 120", count["run"])
        counted("Run, allowance 1", count["run, single"] / 120)
        counted("Run, allowance 0", count["run, desk"])
        counted("Fetch", count["fetch"])
        counted("Whole", count["whole"])
        counted("Whole less Run", count["whole"] - count["run"])
        counted("Whole, half-empty", count["whole, half-empty"])
        counted("Whole, diagonal", count["whole, diagonal"])
        print ""
        row("call", "engine", "C", "ratio")
        if (style == "--markdown") print "|---|--:|--:|--:|"
        compared("Adding a snapshot", count["hubqr_add_snapshot"], count["c_add_by_value"])
        compared("Writing the record", count["hubqr_write_matrix"], count["c_write_by_value"])
        compared("Weights", count["hubqr_weights"], count["c_weights"])
        compared("Verify", count["hubqr_verify"], count["c_verify"])
        compared("Desk, request 0", count["hubqr_desk_run"], count["c_desk_run"])
        compared("Setting shares", count["hubqr_desk_set_shares"], count["c_desk_set_shares"])
        compared("Hand-in, loaded", count["hubqr_desk_hand_in, loaded"], count["c_desk_hand_in, loaded"])
        compared("Hand-in, waits", count["hubqr_desk_hand_in, waiting"], count["c_desk_hand_in, waiting"])
        compared("Desk, Fetch", count["hubqr_desk_fetch, loaded"], count["c_desk_fetch, loaded"])
        compared("Fetch, brings in", count["hubqr_desk_fetch, waiting"], count["c_desk_fetch, waiting"])
        compared("Log, heard byte", count["hubqr_log_add, heard"], count["c_log_add, heard"])
        compared("Log, result", count["hubqr_log_add, result"], count["c_log_add, result"])
        compared("Sweep, keeps all", count["hubqr_log_sweep, today"], count["c_log_sweep, today"])
        compared("Sweep, next day", count["hubqr_log_sweep, tomorrow"], count["c_log_sweep, tomorrow"])
        compared("Log, reading", count["hubqr_log_next"], count["c_log_next"])
    }' "$scratch/full" kind=', half-empty' "$scratch/half-empty" kind=', diagonal' "$scratch/diagonal" \
    kind=', single' "$scratch/single" kind=', desk' "$scratch/desk" kind=', loaded' "$scratch/loaded" kind=', waiting' "$scratch/waiting" \
    kind=', heard' "$scratch/heard" kind=', result' "$scratch/result" kind=', today' "$scratch/today" \
    kind=', tomorrow' "$scratch/tomorrow" kind=', read' "$scratch/read"
