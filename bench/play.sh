#!/bin/sh
# Times the play of small letters among 32 ranks, each telling each other in every phase, beside the same play in C++:
# the least of 5 runs of each whole program, in milliseconds.
set -eu
cd "$(dirname "$0")/.."
work=$(mktemp -d)
trap 'rm -rf "$work"' EXIT

${CXX:-c++} -O2 -march=x86-64-v2 -o "$work/cpp" bench/play.cpp
(cd crates/play_bench && rt run >"$work/build.log" 2>&1) || { cat "$work/build.log" >&2; exit 1; }
proved=crates/play_bench/out/play_bench

# The least time of 5 runs of a program with its words, in microseconds.
least() {
    best=
    for _ in 1 2 3 4 5; do
        start=$(date +%s%N)
        "$@" >"$work/out"
        end=$(date +%s%N)
        taken=$(((end - start) / 1000))
        if [ -z "$best" ] || [ "$taken" -lt "$best" ]; then best=$taken; fi
    done
    echo "$best"
}

echo "| order | letters | proved | C++ | ratio |"
echo "|---|---|---|---|---|"
for order in fifo lifo seed; do
    for phases in 51 101 202 404; do
        "$proved" $order $phases >"$work/a"
        "$work/cpp" $order $phases >"$work/b"
        cmp "$work/a" "$work/b"
        a=$(least "$proved" $order $phases)
        b=$(least "$work/cpp" $order $phases)
        awk -v order=$order -v letters=$((phases * 992)) -v a="$a" -v b="$b" 'BEGIN { printf "| %s | %d | %.0f ms | %.0f ms | %.2f |\n", order, letters, a / 1000, b / 1000, a / b }'
    done
done
