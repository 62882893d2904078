#!/bin/sh
# Times weighed numbers beside the same loops in C++: the least of 25 runs of each, in milliseconds.
set -eu
cd "$(dirname "$0")/.."
work=$(mktemp -d)
trap 'rm -rf "$work"' EXIT

${CXX:-c++} -O3 -march=x86-64-v2 -o "$work/cpp" bench/scalars.cpp
(cd crates/scalar_bench && rt run >"$work/build.log" 2>&1) || { cat "$work/build.log" >&2; exit 1; }
proved=crates/scalar_bench/out/scalar_bench

# The least time of 25 runs of a program with a word, in microseconds.
least() {
    best=
    for _ in 1 2 3 4 5 6 7 8 9 10 11 12 13 14 15 16 17 18 19 20 21 22 23 24 25; do
        start=$(date +%s%N)
        "$1" "$2" >"$work/out"
        end=$(date +%s%N)
        taken=$(((end - start) / 1000))
        if [ -z "$best" ] || [ "$taken" -lt "$best" ]; then best=$taken; fi
    done
    echo "$best"
}

echo "| ten million | proved | C++ | ratio |"
echo "|---|---|---|---|"
for word in add mul product; do
    "$proved" $word >"$work/a"
    "$work/cpp" $word >"$work/b"
    cmp "$work/a" "$work/b"
    a=$(least "$proved" $word)
    b=$(least "$work/cpp" $word)
    awk -v word=$word -v a="$a" -v b="$b" 'BEGIN { printf "| %s | %.1f ms | %.1f ms | %.2f |\n", word, a / 1000, b / 1000, a / b }'
done
