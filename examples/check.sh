#!/bin/bash
# Runs each example in mode serial, and compares what it writes with the files beside it: NAME.out has its standard
# output and NAME.err its standard error, and where there is no such file it writes nothing there.
# Usage: examples/check.sh PROGRAM
set -u
program=$(realpath "$1")
cd "$(dirname "$0")" || exit 1
work=$(mktemp -d)
trap 'rm -rf "$work"' EXIT
count=0
wrong=0
for source in *.cpp; do
    "$program" serial <"$source" >"$work/out" 2>"$work/err"
    for kind in out err; do
        expected=${source%.cpp}.$kind
        [ -e "$expected" ] || expected=/dev/null
        if ! diff "$expected" "$work/$kind"; then
            echo "examples/$source: its standard $kind differs"
            wrong=$((wrong + 1))
        fi
    done
    count=$((count + 1))
done
echo "$count examples, $wrong outputs that differ"
[ "$count" -gt 0 ] && [ "$wrong" -eq 0 ]
