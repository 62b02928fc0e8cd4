#!/usr/bin/env bash
# Builds the planner for C, compiles the example as C and as C++ with every warning an error, runs both and compares what they print;
# then searches and colours with the stack that the header asks for. Exits with 1 on any failure.
# The archive is for x86-64, as the kit that builds it is.
set -u
cd "$(dirname "$0")/../.." || exit 1
bindings/c/build.sh || { echo "bindings/c/test.sh: FAILED: bindings/c/build.sh"; exit 1; }
out=target/buyerspruce
status=0
fail() {
    echo "bindings/c/test.sh: FAILED: $*"
    status=1
}
cc=${CC:-gcc} cxx=${CXX:-g++}
# LABEL COMMAND..: compiles, runs, compares
example() {
    label=$1
    shift
    "$@" -O2 -Wall -Wextra -Wpedantic -Werror -I "$out" bindings/c/example.c "$out/libbuyerspruce.a" -o "$out/example_$label" || { fail "$label does not compile"; return; }
    "$out/example_$label" >"$out/example_$label.out" || { fail "$label: exit status $?"; return; }
    diff -u bindings/c/example.expected "$out/example_$label.out" || { fail "$label prints something else"; return; }
    echo "bindings/c/test.sh: $label ok"
}
example c "$cc" -std=c99
example cxx "$cxx" -std=c++11
if "$cc" -std=c99 -O2 -Wall -Wextra -Wpedantic -Werror -pthread -I "$out" bindings/c/stack.c "$out/libbuyerspruce.a" -o "$out/stack"; then
    "$out/stack" && echo "bindings/c/test.sh: stack ok" || fail "the stack of the header is not enough"
else
    fail "stack does not compile"
fi
exit $status
