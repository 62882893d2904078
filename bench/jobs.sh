#!/bin/sh
# Times `tpx run` of a job without letters beside the same work in C++ (bench/jobs.cpp): a vector read from array text, on
# 4 ranks, updated ten times and printed. Each the least processor time of 5 runs and the most memory that is resident.
# Usage: sh bench/jobs.sh [NUMBERS]
set -eu
n=${1:-4000000}
home=$(CDPATH='' cd -- "$(dirname -- "$0")/.." && pwd)
work=$(mktemp -d)
trap 'rm -rf "$work"' EXIT
${CXX:-g++} -O2 -march=x86-64-v2 -o "$work/jobs" "$home/bench/jobs.cpp"
"$home/tpx" show 1 "$home/examples/a.mtx" >/dev/null
program=$home/crates/tpx/out/tpx

awk -v n="$n" 'BEGIN { print "%%MatrixMarket matrix array integer general"; print n, 1; for (i = 0; i < n; i++) print (i * 7919) % 1000003 - 500000 }' >"$work/x.mtx"
{
    printf 'ranks = 4\n[[map]]\nkind = "uniform"\nname = "u"\nsize = %s\n[[vector]]\nname = "y0"\nmap = "u"\nfile = "%s"\n' "$n" "$work/x.mtx"
    for k in 1 2 3 4 5 6 7 8 9 10; do
        printf '[[do]]\nop = "update"\nname = "y%s"\nx = "y%s"\ny = "y0"\nalpha = 2\nbeta = -1\n' "$k" $((k - 1))
    done
    printf '[[do]]\nop = "print"\nvalue = "y10"\n'
} >"$work/j.toml"
"$program" run "$work/j.toml" >"$work/a"
"$work/jobs" "$work/x.mtx" >"$work/b"
cmp "$work/a" "$work/b"

# The least processor time of 5 runs, in milliseconds, and the most resident memory of one, in KB.
least() {
    for _ in 1 2 3 4 5; do
        sh -c '"$@" >/dev/null; times' sh "$@" | awk 'END { split($1, t, "m"); split($2, s, "m"); printf "%.0f\n", 1000 * (60 * t[1] + t[2] + 60 * s[1] + s[2]) }'
    done | sort -n | head -n 1
}
memory() {
    if [ -x /usr/bin/time ]; then /usr/bin/time -f %M "$@" 2>&1 >/dev/null | tail -n 1; else echo unknown; fi
}
echo "numbers $n"
echo "proved $(least "$program" run "$work/j.toml") ms, $(memory "$program" run "$work/j.toml") KB"
echo "C++    $(least "$work/jobs" "$work/x.mtx") ms, $(memory "$work/jobs" "$work/x.mtx") KB"

# A job text of 64 maps and 200 statements on small maps.
{
    printf 'ranks = 4\n'
    for k in $(seq 0 63); do printf '[[map]]\nkind = "uniform"\nname = "m%s"\nsize = %s\n' "$k" "$k"; done
    printf '[[vector]]\nname = "v0"\nmap = "m9"\nfill = 1\n'
    for k in $(seq 1 200); do printf '[[do]]\nop = "update"\nname = "v%s"\nx = "v%s"\ny = "v0"\nbeta = -1\n' "$k" $((k - 1)); done
} >"$work/long.toml"
echo "a job text of 64 maps and 200 statements, read and run: $(least "$program" run "$work/long.toml") ms"
