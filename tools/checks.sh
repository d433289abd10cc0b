# What scripts share that count their checks: a folder for scratch, which goes at the end, and fail TEXT. Sourced from the top of the repository, with its
# name in `script`.
scratch=$(mktemp -d) || exit 1
trap 'rm -rf "$scratch"' EXIT
passed=0

fail() {
    echo "$script: FAILED after $passed checks: $1" >&2
    exit 1
}
