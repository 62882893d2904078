#!/bin/sh
# Times `tpx run` of a job on 4 ranks whose parts have each index on two of them: they are exported with `add` onto a uniform
# vector and spread back, ten times, beside the same letters in C++ (bench/exports.cpp): the least processor time of 3 runs, and the
# most memory that is resident. A job text has room for some 87,000 indices on two lists each, so that the cells stand in two parts
# of 16 columns, and both go there and back in each round.
# Usage: sh bench/exports.sh [INDICES [ROUNDS]]
set -eu
n=${1:-62500}
rounds=${2:-10}
columns=16
values=2
home=$(CDPATH='' cd -- "$(dirname -- "$0")/.." && pwd)
work=$(mktemp -d)
trap 'rm -rf "$work"' EXIT
${CXX:-g++} -O2 -march=x86-64-v2 -o "$work/exports" "$home/bench/exports.cpp"
"$home/tpx" show 1 "$home/examples/a.mtx" >/dev/null
program=$home/crates/tpx/out/tpx

# The lists of 4 ranks, index g being on rank g mod 4 and on the next one.
lists() {
    awk -v n="$n" 'BEGIN {
        for (p = 0; p < 4; p++) {
            printf "%s[", p ? ", " : ""
            between = ""
            for (g = 0; g < n; g++) if (g % 4 == p || (g + 1) % 4 == p) { printf "%s%d", between, g; between = "," }
            printf "]"
        }
    }'
}

# The job: parts of ones, each exported onto zeros, and then spread back, so many times.
job() {
    printf 'ranks = 4\n[[map]]\nkind = "uniform"\nname = "u"\nsize = %s\n' "$n"
    printf '[[map]]\nkind = "lists"\nname = "l"\nsize = %s\nlists = [%s]\n' "$n" "$(lists)"
    printf '[[vector]]\nname = "zeros"\nmap = "u"\ncolumns = %s\nfill = 0\n' "$columns"
    awk -v columns="$columns" -v values="$values" -v rounds="$rounds" 'BEGIN {
        for (k = 1; k <= values; k++) printf "[[parts]]\nname = \"p%d_0\"\nmap = \"l\"\ncolumns = %d\nfill = 1\n", k, columns
        for (r = 1; r <= rounds; r++)
            for (k = 1; k <= values; k++) {
                printf "[[do]]\nop = \"export\"\nname = \"y%d_%d\"\nfrom = \"p%d_%d\"\nonto = \"zeros\"\nmode = \"add\"\n", k, r, k, r - 1
                printf "[[do]]\nop = \"spread\"\nname = \"p%d_%d\"\nfrom = \"y%d_%d\"\nmap = \"l\"\n", k, r, k, r
            }
    }'
}

# The least processor time of 3 runs, in milliseconds, and the most resident memory of one, in KB.
least() {
    for _ in 1 2 3; do
        sh -c '"$@" >/dev/null; times' sh "$@" | awk 'END { split($1, t, "m"); split($2, s, "m"); printf "%.0f\n", 1000 * (60 * t[1] + t[2] + 60 * s[1] + s[2]) }'
    done | sort -n | head -n 1
}
memory() {
    if [ -x /usr/bin/time ]; then /usr/bin/time -f %M "$@" 2>&1 >/dev/null | tail -n 1; else echo unknown; fi
}

job >"$work/j.toml"
echo "$values parts of $((2 * n * columns)) cells, exported and spread $rounds times on 4 ranks"
echo "proved $(least "$program" run "$work/j.toml") ms, $(memory "$program" run "$work/j.toml") KB"
echo "C++    $(least "$work/exports" "$n" "$columns" "$values" "$rounds") ms, $(memory "$work/exports" "$n" "$columns" "$values" "$rounds") KB"
