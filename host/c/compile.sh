#!/bin/sh
# What has to compile and what must not, run from the top of the repository:
#   every header alone, as C11 and as C++17, by each compiler that is installed, without a warning
#   the lines in C of README.md, in a function
#   host/c/wrong/*.c: gcc refuses each for the warning that its first line names, and takes it with -DRIGHT, which removes the fault
# gcc is named because other compilers may not know the attributes that find the faults.
set -u
cd "$(dirname "$0")/../.." || exit 1
export LC_ALL=C
passed=0

fail() {
    echo "compile: FAILED after $passed checks: $1" >&2
    exit 1
}

# compile COMPILER ARGUMENT...: compiles without output; messages go to standard output.
compile() {
    "$@" -Wall -Wextra -Werror -pedantic -Iinclude -O2 -c -o /dev/null 2>&1
}

# alone COMPILER STANDARD LANGUAGE HEADER: the header needs nothing before it and stands twice as well as once.
alone() {
    command -v "$1" >/dev/null || return 0
    messages=$(printf '#include "%s"\n#include "%s"\n' "$4" "$4" | compile "$1" -std="$2" -x "$3" -) || fail "$1 -std=$2, $4: $messages"
    passed=$((passed + 1))
}

for header in include/*.h; do
    for family in 'gcc g++' 'clang clang++'; do
        alone "${family% *}" c11 c "${header#include/}"
        alone "${family#* }" c++17 c++ "${header#include/}"
    done
done

# readme: README's lines in C, with what they take from around them.
readme() {
    awk '
    $0 == "```c" { on = 1; next }
    /^```/ && on { print "}"; exit }
    on
    on && /^#include/ { print "void other_work(void);\nint hub(const uint8_t *record, size_t record_len);" }
    on && /^#include/ { print "int hub(const uint8_t *record, size_t record_len) {" }
    ' README.md
}

messages=$(readme | compile gcc -std=c11 -x c -) || fail "the lines in C of README.md: $messages"
passed=$((passed + 1))

for program in host/c/wrong/*.c; do
    warning=$(sed -n '1s/^\/\* \(-Werror=[a-z-]*\): .*/\1/p' "$program")
    [ -n "$warning" ] || fail "$program names no warning in its first line"
    messages=$(compile gcc -std=c11 "$program") && fail "$program compiles, and its first line says why it must not"
    case $messages in
    *"[$warning]"* | *"[$warning=]"*) ;;
    *) fail "$program is not refused by $warning: $messages" ;;
    esac
    messages=$(compile gcc -std=c11 -DRIGHT "$program") || fail "$program with -DRIGHT: $messages"
    passed=$((passed + 1))
done
echo "compile: $passed checks passed"
