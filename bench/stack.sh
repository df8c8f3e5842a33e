#!/bin/bash
# Finds the least stack, in steps of 16 KiB, with which the built program reads and checks trees of height 64 of several
# kinds.
# Usage: bench/stack.sh. Needs python3.
. "$(dirname "$0")/common.sh"
for kind in parentheses signs calls indexes blocks branches loops lambdas; do
    python3 - "$kind" >"$work/source" <<'PY'
import sys
# what stands before and behind the innermost part, what a nesting adds, and how many make a tree of height 64
head, tail = "int main() { return ", "; }"
opens, closes, inner, count = {
    "parentheses": ("(", ")", "1", 61),
    "signs": ("-", "", " 1", 61),
    "calls": ("f(", ")", "1", 61),
    "indexes": ("a[", "]", "1", 61),
    "blocks": ("{", "}", ";", 62),
    "branches": ("if (x) ", "", ";", 62),
    "loops": ("for (;;) ", "", ";", 62),
    "lambdas": ("std::thread t([] { ", " });", ";", 20),
}[kind := sys.argv[1]]
if kind in ("blocks", "branches", "loops", "lambdas"):
    head, tail = "int main() { ", " }"
if kind == "signs":
    opens = "- "
print(head + opens * count + inner + closes * count + tail, end="")
PY
    status=0
    "$program" check <"$work/source" >/dev/null 2>"$work/note" || status=$?
    if grep -q 'not in the grammar' "$work/note"; then
        echo "$kind: $(cat "$work/note")"
        exit 1
    fi
    for ((room = 16; room <= 8192; room += 16)); do
        if (ulimit -s "$room"; "$program" check <"$work/source" >/dev/null 2>"$work/note"; [ $? -eq "$status" ]) 2>/dev/null; then
            break
        fi
    done
    echo "$kind: $room KiB of stack"
done
