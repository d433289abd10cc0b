#!/bin/sh
# Checks that all who declare the face of libhubqr.a say what the headers in include/ say, and that these have their attributes:
#   functions   the archive's symbols; name, parameters and result in host/rust/src/ffi.rs, of the exports in crates/hubqr_c/src and of what
#               these call in crates/hubqr/src
#   structs     fields, their order, types and lengths in host/rust/src/ffi.rs, and in crates/*/src where they are marked #[repr(C)]
#   refusals    number, name and sentence in host/rust/src/refusal.rs; the numbers in crates/refusals/src
#   roles       name and number in host/rust/src/role.rs and in crates/desk/src
#   version     hubqr_version in crates/hubqr/src, Cargo.toml, host/rust/Cargo.toml
# tools/face/*.awk read the sources into lines of a key (`function hubqr_load`, `struct load_reply`, ..), a tab and the content.
# Prints what differs and ends with 1, or prints how many declarations agree. HUBQR_LIB_DIR names another folder with the archive.
set -u
cd "$(dirname "$0")/.." || exit 1
export LC_ALL=C

# read_by READER FILE...: what a reader finds in the files.
read_by() {
    reader=tools/face/$1.awk
    shift
    awk -f tools/face/common.awk -f "$reader" "$@"
}

# symbols FILE: what an archive exports.
symbols() {
    nm -g --defined-only "$1" | awk 'NF == 3 { printf "symbol %s\t\n", $3 }'
}

# numbers: the numbers that Rattle code on standard input gives the refusals.
numbers() {
    awk '/^ *Refusal::[A-Za-z]+ => [1-9][0-9]*,/ { sub(/^[^>]*> /, ""); sub(/,.*/, ""); printf "number %s\t\n", $0 }'
}

# roles: the roles and their numbers, in the Rust enum or the Rattle constants on standard input.
roles() {
    sed -n -e 's/^pub const \([A-Z]*\): u32 = \([0-9]*\);$/\1 \2/p' -e 's/^    \([A-Z][a-z]*\) = \([0-9]*\),$/\1 \2/p' |
        awk '{ printf "role %s\t%s\n", toupper($1), $2 }'
}

# cargo_version FILE: its first version, as the number that hubqr_version answers.
cargo_version() {
    awk -F '[".]' '/^version = / { printf "version\t%d\n", 10000 * $2 + 100 * $3 + $4; exit }' "$1"
}

# rattle FOLDER: all Rattle code in the folder, but for the copies that rt keeps in a crate's out/.
rattle() {
    find "$1" -name out -prune -o -path '*/src/*' -name '*.rt' -print 2>/dev/null | sort | xargs cat /dev/null
}

# compare SOURCE KIND...: prints where what a source says, on standard input, is not what the headers say of these kinds, and its faults.
compare() {
    source=$1
    shift
    sort -u | awk -F '\t' -v source="$source" -v kinds=" $* " '
    { kind = $1; sub(/ .*/, "", kind) }
    said && kind == "fault" { print source ": " $2 }
    index(kinds, " " kind " ") == 0 { next }
    !said { header[$1] = $2; keys[++n] = $1; next }
    { seen[$1] = 1 }
    !($1 in header) { print source ": " $1 ($2 == "" ? "" : " " $2) " is not in include/"; next }
    $2 != header[$1] { printf "%s: %s differs\n    %s\n    %s in include/\n", source, $1, $2, header[$1] }
    END { for (k = 1; k <= n; k++) if (!(keys[k] in seen)) print source ": no " keys[k] }
    ' "$scratch/headers" said=1 -
}

archive=${HUBQR_LIB_DIR:-build}/libhubqr.a
if [ ! -f "$archive" ]; then
    echo "check-face: $archive is not there: run \`make build/libhubqr.a\`" >&2
    exit 1
fi
scratch=$(mktemp -d) || exit 1
trap 'rm -rf "$scratch"' EXIT
read_by header include/*.h >"$scratch/headers"
for name in hubqr hubqr_c; do
    rattle crates/$name >"$scratch/$name"
done
rattle crates >"$scratch/rattle"
{
    awk -F '\t' '$1 == "fault" { print "include/: " $2 }' "$scratch/headers"
    symbols "$archive" | compare "$archive" symbol
    read_by rust host/rust/src/ffi.rs | compare host/rust/src/ffi.rs function struct
    read_by rust "$scratch/hubqr_c" | compare crates/hubqr_c/src function
    read_by rust "$scratch/hubqr" | compare crates/hubqr/src function version
    read_by rust "$scratch/rattle" | compare 'crates/*/src' struct
    read_by refusals host/rust/src/refusal.rs | compare host/rust/src/refusal.rs refusal
    rattle crates/refusals | numbers | compare crates/refusals/src number
    roles <host/rust/src/role.rs | compare host/rust/src/role.rs role
    rattle crates/desk | roles | compare crates/desk/src role
    for file in Cargo.toml host/rust/Cargo.toml; do
        cargo_version "$file" | compare "$file" version
    done
} >"$scratch/differences"
if [ -s "$scratch/differences" ]; then
    cat "$scratch/differences"
    exit 1
fi
awk '/^(function|struct|refusal|role|version)/ { n++ } END { printf "face: %d declarations agree\n", n }' "$scratch/headers"
