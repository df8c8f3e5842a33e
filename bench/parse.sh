#!/bin/bash
# Counts the instructions that the built program takes to read sources into their trees, by callgrind, and its peak
# memory: long chains of operators, deep parentheses, and usual code. Each source ends with a token that leaves it without
# a tree, so it is refused once all of it is read, and nothing more is done with it.
# Usage: bench/parse.sh [KiB ..]   (64 1024 if left out). Needs valgrind, python3 and /usr/bin/time.
. "$(dirname "$0")/common.sh"
[ $# -gt 0 ] || set -- 64 1024
for kind in long deep usual; do
    for size in "$@"; do
        python3 - "$kind" "$size" >"$work/source" <<'PY'
import sys
kind, size = sys.argv[1], int(sys.argv[2]) * 1024
head, tail = "using namespace sycl;\nint main() {\n", "}\n)"
unit = {
    "long": "  x = " + " + ".join(["a", "b * c", "1u"] * 12) + ";\n",
    "deep": "  x = " + "(" * 56 + "1" + ")" * 56 + ";\n",
    "usual": """  q.submit([&](handler& h) {
    accessor s{y, h, read_only};
    accessor d{x, h, write_only, no_init};
    h.parallel_for(nd_range<1>{range<1>{64}, range<1>{8}}, [=](nd_item<1> it) {
      size_t g = it.get_global_id(0);
      if (g % 2 == 0) d[g] = s[63 - g] * 3u + k; // every other one
    });
  });
  for (int i = 0; i < 64; ++i) t += a[i];
""",
}[kind]
text = head + unit * ((size - len(head) - len(tail)) // len(unit)) + tail
print(text + " " * (size - len(text)), end="")
PY
        valgrind --tool=callgrind --callgrind-out-file="$work/out" "$program" serial \
            <"$work/source" >/dev/null 2>"$work/log" || true
        grep -q 'not in the grammar' "$work/log" || { cat "$work/log"; exit 1; }
        count=$(sed -n 's/.*Collected : \([0-9]*\).*/\1/p' "$work/log")
        peak=$({ /usr/bin/time -f %M "$program" serial <"$work/source" 2>&1 >/dev/null || true; } | tail -n 1)
        awk -v kind="$kind" -v size="$size" -v count="$count" -v peak="$peak" 'BEGIN {
            printf "%s, %d KiB: %d instructions, %.1f a byte, peak %d KiB\n", kind, size, count, count / (size * 1024), peak
        }'
    done
done
