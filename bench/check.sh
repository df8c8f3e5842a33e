#!/bin/bash
# Counts the instructions that the built program takes to check accepted sources, by callgrind, and its peak memory: a main
# of declarations and sums, a main of locals that are each used once when all are declared, and functions that each call the
# one before, the last of them called by a kernel. At 1 MiB there are some 10,000 locals or functions.
# What reading takes is counted at the same text with a `)` behind it, which has no tree, and is taken off.
# Usage: bench/check.sh [KiB ..]   (64 1024 if left out). Needs valgrind, python3 and /usr/bin/time.
. "$(dirname "$0")/common.sh"
[ $# -gt 0 ] || set -- 64 1024

# The instructions of mode check on a source, which ends with this status.
count() {
    local status=0
    valgrind --tool=callgrind --callgrind-out-file="$work/out" "$program" check <"$1" >/dev/null 2>"$work/log" || status=$?
    [ "$status" -eq "$2" ] || { grep syclrun: "$work/log" >&2; exit 1; }
    sed -n 's/.*Collected : \([0-9]*\).*/\1/p' "$work/log"
}

for kind in sums locals functions; do
    for size in "$@"; do
        python3 - "$kind" "$size" >"$work/source" <<'PY'
import sys
kind, size = sys.argv[1], int(sys.argv[2]) * 1024
# what stands before, between and behind the parts that are repeated with their numbers
head, parts, tail = {
    "sums": (
        "int main() {\n    int sum = 0;\n",
        ["    int value_{n} = 40 + 2 * {n} - 7;\n    sum += value_{n} - (sum - 10) / 3;\n    std::cout << sum + value_{n};\n"],
        "}\n",
    ),
    "locals": (
        "int main() {\n    int last_value_used = 0;\n",
        ["    int local_variable_{n} = 40 + 2 * 7 - 10;\n", "    last_value_used = 3 + local_variable_{n} * 5;\n"],
        "}\n",
    ),
    "functions": (
        "int next_after_0(int n) { return n; }\n",
        ["int next_after_{n}(int value) {{\n    int step = 2;\n    return next_after_{before}(value + step) - 1;\n}}\n"],
        "int main() {{\n    sycl::queue q;\n    q.submit([&](sycl::handler& h) {{ h.single_task([=] {{ next_after_{count}(1); }}); }});\n}}\n",
    ),
}[kind]
if kind != "functions":
    tail = tail.replace("}", "}}")
text = lambda count: head + "".join(
    part.format(n=n, before=n - 1) for part in parts for n in range(1, count + 1)
) + tail.format(count=count)
# the greatest count that fits
least, most = 1, size
while least < most:
    middle = (least + most + 1) // 2
    if len(text(middle)) <= size:
        least = middle
    else:
        most = middle - 1
print(text(least), end="")
PY
        { cat "$work/source"; echo ')'; } >"$work/unread"
        bytes=$(stat -c %s "$work/source")
        whole=$(count "$work/source" 0)
        reading=$(count "$work/unread" 124)
        peak=$(/usr/bin/time -f %M "$program" check <"$work/source" 2>&1 >/dev/null | tail -n 1)
        awk -v kind="$kind" -v bytes="$bytes" -v whole="$whole" -v reading="$reading" -v peak="$peak" 'BEGIN {
            printf "%s, %d bytes: %.1f instructions a byte for checking, %.1f for reading, peak %d KiB\n", kind, bytes, (whole - reading) / bytes, reading / bytes, peak
        }'
    done
done
