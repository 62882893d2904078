#!/bin/sh
# Times `tpx gen N`, the job that is made of a size, beside the same work in C++ (bench/gen.cpp): on 4 ranks a vector is moved, a
# tridiagonal matrix is assembled, applied to it and multiplied by itself, and the product is applied. The two programs run in turn:
# the least processor time of some runs of each, and the most memory of one run that is resident.
# The shell counts processor time by 10 ms, so that a run of a small size is up to 20 runs of the program, and the time is their mean.
# Usage: sh bench/gen.sh [RUNS [N]]: 5 runs and a size of 1,000,000 where nothing is given. A size is 1 to 1,000,000.
set -eu
runs=${1:-5}
n=${2:-1000000}
repeats=$((200000 / n + 1))
if [ "$repeats" -gt 20 ]; then repeats=20; fi
home=$(CDPATH='' cd -- "$(dirname -- "$0")/.." && pwd)
work=$(mktemp -d)
trap 'rm -rf "$work"' EXIT
${CXX:-g++} -O2 -march=x86-64-v2 -o "$work/gen" "$home/bench/gen.cpp"
"$home/tpx" gen 1 >/dev/null
program=$home/crates/tpx/out/tpx

# The processor time of a program with its words, in milliseconds.
took() {
    sh -c 'k=$1; shift; while [ "$k" -gt 0 ]; do "$@" >/dev/null; k=$((k - 1)); done; times' sh "$repeats" "$@" |
        awk -v repeats="$repeats" 'END { split($1, t, "m"); split($2, s, "m"); printf "%.1f\n", 1000 * (60 * t[1] + t[2] + 60 * s[1] + s[2]) / repeats }'
}
# The most resident memory of a program with its words, in KB.
memory() {
    if [ -x /usr/bin/time ]; then /usr/bin/time -f %M "$@" 2>&1 >/dev/null | tail -n 1; else echo unknown; fi
}
least() { sort -n "$1" | head -n 1; }
ratio() { awk -v a="$1" -v b="$2" 'BEGIN { if (b + 0 > 0) printf "%.2f", a / b; else printf "unknown" }'; }

# All lines but that of the letters, of which C++ has none.
"$program" gen "$n" >"$work/a.all"
"$work/gen" "$n" >"$work/b.all"
grep -v '^letters ' "$work/a.all" >"$work/a"
grep -v '^letters ' "$work/b.all" >"$work/b"
cmp "$work/a" "$work/b"

for _ in $(seq "$runs"); do
    took "$program" gen "$n" >>"$work/proved"
    took "$work/gen" "$n" >>"$work/plain"
done
a=$(least "$work/proved")
b=$(least "$work/plain")
am=$(memory "$program" gen "$n")
bm=$(memory "$work/gen" "$n")
echo "| size | proved | C++ | ratio | proved, memory | C++, memory | ratio |"
echo "|---|---|---|---|---|---|---|"
echo "| $n | $a ms | $b ms | $(ratio "$a" "$b") | $am KB | $bm KB | $(ratio "$am" "$bm") |"
