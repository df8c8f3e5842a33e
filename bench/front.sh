#!/bin/bash
# Counts the instructions of the built program on sources of sums, by callgrind, and its peak memory.
# Usage: bench/front.sh [KiB ..]   (64 256 1024 if left out). Needs valgrind, python3 and /usr/bin/time.
. "$(dirname "$0")/common.sh"
[ $# -gt 0 ] || set -- 64 256 1024
for size in "$@"; do
    python3 - "$size" >"$work/source" <<'PY'
import sys
size = int(sys.argv[1]) * 1024
head, tail = "#include <iostream>\nint main() {\n", "}\n"
line = "    std::cout << 40 + 2 << 7 - 10 << 2147483648 - 1; // a line of sums\n"
count = (size - len(head) - len(tail)) // len(line)
text = head + line * count + tail
print(text + " " * (size - len(text)), end="")
PY
    valgrind --tool=callgrind --callgrind-out-file="$work/out" "$program" serial \
        <"$work/source" >/dev/null 2>"$work/log"
    count=$(sed -n 's/.*Collected : \([0-9]*\).*/\1/p' "$work/log")
    peak=$(/usr/bin/time -f %M "$program" serial <"$work/source" 2>&1 >/dev/null | tail -n 1)
    awk -v size="$size" -v count="$count" -v peak="$peak" 'BEGIN {
        printf "%d KiB: %d instructions, %.1f a byte, peak %d KiB\n", size, count, count / (size * 1024), peak
    }'
done
