#!/bin/sh
# Times the layers below a rank beside the same work in C++, a round of each: the difference of two whole programs with some
# rounds and with none, each the least processor time of 7 runs, in milliseconds.
set -eu
cd "$(dirname "$0")/.."
work=$(mktemp -d)
trap 'rm -rf "$work"' EXIT

${CXX:-c++} -O3 -march=x86-64-v2 -o "$work/cpp" bench/layers.cpp
(cd crates/layers_bench && rt run >"$work/build.log" 2>&1) || { cat "$work/build.log" >&2; exit 1; }
proved=crates/layers_bench/out/layers_bench

# The least processor time of 7 runs of a program with its words, in microseconds.
least() {
    for _ in 1 2 3 4 5 6 7; do
        sh -c '"$@" >/dev/null; times' sh "$@" | awk 'END { split($1, t, "m"); split($2, s, "m"); printf "%.0f\n", 1000000 * (60 * t[1] + t[2] + 60 * s[1] + s[2]) }'
    done | sort -n | head -n 1
}

echo "| a round of | proved | C++ | ratio |"
echo "|---|---|---|---|"
# word, rounds, indices
measure() {
    "$proved" "$1" "$2" "$3" >"$work/a"
    "$work/cpp" "$1" "$2" >"$work/b"
    cmp "$work/a" "$work/b"
    a=$(least "$proved" "$1" "$2" "$3")
    a0=$(least "$proved" "$1" 0 "$3")
    b=$(least "$work/cpp" "$1" "$2")
    b0=$(least "$work/cpp" "$1" 0)
    awk -v word="$1" -v n="$2" -v a=$((a - a0)) -v b=$((b - b0)) 'BEGIN { printf "| %s | %.1f ms | %.1f ms | %.2f |\n", word, a / n / 1000, b / n / 1000, a / b }'
}
measure lookups 4 1000000
measure plan 10 4000000
measure update 30 4000000
measure transfer 20 4000000
