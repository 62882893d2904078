#!/bin/sh
# Times letters beside the same bytes in C++, laid out, checked and taken apart: the least of 25 runs of each, in
# milliseconds.
set -eu
cd "$(dirname "$0")/.."
work=$(mktemp -d)
trap 'rm -rf "$work"' EXIT

${CXX:-c++} -O3 -march=x86-64-v2 -o "$work/cpp" bench/letters.cpp
(cd crates/letter_bench && rt run >"$work/build.log" 2>&1) || { cat "$work/build.log" >&2; exit 1; }
proved=crates/letter_bench/out/letter_bench

# The least time of 25 runs of a program, in microseconds.
least() {
    best=
    for _ in 1 2 3 4 5 6 7 8 9 10 11 12 13 14 15 16 17 18 19 20 21 22 23 24 25; do
        start=$(date +%s%N)
        "$1" >"$work/out"
        end=$(date +%s%N)
        taken=$(((end - start) / 1000))
        if [ -z "$best" ] || [ "$taken" -lt "$best" ]; then best=$taken; fi
    done
    echo "$best"
}

"$proved" >"$work/a"
"$work/cpp" >"$work/b"
cmp "$work/a" "$work/b"
a=$(least "$proved")
b=$(least "$work/cpp")
awk -v a="$a" -v b="$b" 'BEGIN { printf "| 4,000,000 entries | %.1f ms | %.1f ms | %.2f |\n", a / 1000, b / 1000, a / b }'
