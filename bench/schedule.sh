#!/bin/sh
# Times the reading of the text of a schedule, up to the longest one: what reading takes beyond making the text, each the
# least of 9 runs of the whole proved program.
set -eu
cd "$(dirname "$0")/.."
work=$(mktemp -d)
trap 'rm -rf "$work"' EXIT

(cd crates/schedule_bench && rt run >"$work/build.log" 2>&1) || { cat "$work/build.log" >&2; exit 1; }
proved=crates/schedule_bench/out/schedule_bench

# The least time of 9 runs of a program with its words, in microseconds.
least() {
    best=
    for _ in 1 2 3 4 5 6 7 8 9; do
        start=$(date +%s%N)
        "$@" >"$work/out"
        end=$(date +%s%N)
        taken=$(((end - start) / 1000))
        if [ -z "$best" ] || [ "$taken" -lt "$best" ]; then best=$taken; fi
    done
    echo "$best"
}

echo "| bytes | lines | reading | a byte |"
echo "|---|---|---|---|"
for lines in 1048576 2097152 4194304 8388608; do
    test "$("$proved" read $lines)" = $lines
    a=$(least "$proved" read $lines)
    b=$(least "$proved" text $lines)
    awk -v lines=$lines -v t=$((a - b)) 'BEGIN { printf "| %d | %d | %.0f ms | %.2f ns |\n", 8 * lines, lines, t / 1000, 1000 * t / 8 / lines }'
done
