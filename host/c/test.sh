#!/bin/sh
# The headers and the archive agree, from C and from C++, by each compiler: CC and CXX, or cc and c++, and besides them clang and clang++ where
# installed. The tests in C run under valgrind too, where that is installed. Says plainly what is left out. Run from the top of the repository.
set -u
cd "$(dirname "$0")/../.." || exit 1
warnings='-Wall -Wextra -Werror -pedantic -Iinclude'

# left_out PROGRAM: whether it is not installed, which is then said.
left_out() {
    ! command -v "$1" >/dev/null && echo "test: $1 is not installed: its run is left out"
}

# run COMMAND...: what fails ends the tests; the compiler or program has said why.
run() {
    "$@" || {
        echo "test: FAILED: $*" >&2
        exit 1
    }
}

# by C_COMPILER C++_COMPILER: the tests as these two compile them.
by() {
    echo "test: by $1 and $2"
    run "$1" -std=c11 $warnings -g host/c/*.c build/libhubqr.a -o build/test_hubqr
    run build/test_hubqr
    run "$2" -std=c++17 $warnings host/c/test_header.cpp build/libhubqr.a -o build/test_header
    run build/test_header
}

left_out clang || left_out clang++ || by clang clang++
by "${CC:-cc}" "${CXX:-c++}"
left_out valgrind || run valgrind -q --leak-check=full --error-exitcode=1 build/test_hubqr
