# What scripts share that compare a program in C with its twin in Rust: `c_program` and `rust_program`. Sourced behind tools/checks.sh.

# run NAME PROGRAM ARGUMENT...: keeps output, messages and status under NAME.
run() {
    name=$1
    shift
    "$@" >"$scratch/$name.out" 2>"$scratch/$name.err"
    echo $? >"$scratch/$name.status"
}

# said NAME: its messages, without the number of a system's error and the bytes that are no letters, which Rust writes otherwise than C.
said() {
    LC_ALL=C sed -e 's/ (os error [0-9]*)$//' -e 's/[^ -~][^ -~]*/?/g' "$scratch/$1.err"
}

# check STATUS TEXT ARGUMENT...: both programs end with STATUS, print and say the same, and have TEXT in that.
check() {
    status=$1
    text=$2
    shift 2
    run c "$c_program" "$@"
    run rust "$rust_program" "$@"
    cmp -s "$scratch/c.out" "$scratch/rust.out" || fail "C and Rust print different things on: $*"
    [ "$(said c)" = "$(said rust)" ] || fail "C and Rust say different things on: $*"
    for name in c rust; do
        [ "$(cat "$scratch/$name.status")" = "$status" ] || fail "$name does not end with status $status on: $*"
        grep -q -F -e "$text" "$scratch/$name.out" "$scratch/$name.err" || fail "$name does not print '$text' on: $*"
    done
    passed=$((passed + 1))
}

# check_full ARGUMENT...: both programs end with status 1, or what the script has set `unwritten` to, and say so when their output cannot be written.
unwritten=1
check_full() {
    for program in "$c_program" "$rust_program"; do
        "$program" "$@" >/dev/full 2>"$scratch/full.err"
        [ $? = "$unwritten" ] || fail "$program does not end with status $unwritten on a full device"
        grep -q -F 'standard output: ' "$scratch/full.err" || fail "$program does not report a full device"
    done
    passed=$((passed + 1))
}
