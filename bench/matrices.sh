#!/bin/sh
# Times the matrices of one rank beside the same work in C++: one round of each, which is the difference of two whole programs
# with some rounds more, each the least processor time of some runs, and the greatest resident size of a program with one round.
# Usage: sh bench/matrices.sh [RUNS [ROWS]]: 7 runs and 1,000,000 rows where nothing is given, with four cells a row.
set -eu
cd "$(dirname "$0")/.."
runs=${1:-7}
rows=${2:-1000000}
work=$(mktemp -d)
trap 'rm -rf "$work"' EXIT

${CXX:-c++} -O3 -march=x86-64-v2 -o "$work/cpp" bench/matrices.cpp
if [ -z "${PROVED:-}" ]; then
    (cd crates/matrices_bench && rt run >"$work/build.log" 2>&1) || { cat "$work/build.log" >&2; exit 1; }
fi
proved=${PROVED:-crates/matrices_bench/out/matrices_bench}

# The least processor time of the runs of a program with its words, in milliseconds.
least() {
    for _ in $(seq "$runs"); do
        sh -c '"$@" >/dev/null; times' sh "$@" |
            awk 'END { for (i = 1; i <= 2; i++) { split($i, t, "m"); all += 60 * t[1] + t[2] } printf "%.0f\n", 1000 * all }'
    done | sort -n | head -n 1
}

# The greatest resident size of a program with its words, in MB.
memory() {
    /usr/bin/time -f %M "$@" 2>&1 >/dev/null | awk '{ printf "%.0f\n", $1 / 1024 }'
}

echo "| one round of | proved | C++ | ratio | proved, memory | C++, memory | ratio |"
echo "|---|---|---|---|---|---|---|"
# word, rounds of the shorter and of the longer program
measure() {
    "$proved" "$1" "$3" "$rows" $((4 * rows)) >"$work/a"
    "$work/cpp" "$1" "$3" "$rows" $((4 * rows)) >"$work/b"
    cmp "$work/a" "$work/b"
    a=$(($(least "$proved" "$1" "$3" "$rows" $((4 * rows))) - $(least "$proved" "$1" "$2" "$rows" $((4 * rows)))))
    b=$(($(least "$work/cpp" "$1" "$3" "$rows" $((4 * rows))) - $(least "$work/cpp" "$1" "$2" "$rows" $((4 * rows)))))
    am=$(memory "$proved" "$1" 1 "$rows" $((4 * rows)))
    bm=$(memory "$work/cpp" "$1" 1 "$rows" $((4 * rows)))
    awk -v word="$1" -v n=$(($3 - $2)) -v a="$a" -v b="$b" -v am="$am" -v bm="$bm" \
        'BEGIN { printf "| %s | %.0f ms | %.0f ms | %.2f | %d MB | %d MB | %.2f |\n", word, a / n, b / n, a / b, am, bm, am / bm }'
}
measure fill 0 1
measure structure 0 1
measure change 1 2
measure apply 1 6
measure transposed 1 6
measure transpose 1 3
measure product 1 6
measure sum 1 3
