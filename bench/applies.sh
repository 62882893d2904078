#!/bin/sh
# Times `tpx run` of a job on 4 ranks that reads a matrix from coordinate text, applies it ten times to a vector of ones and prints
# the last product, beside the same work in C++ (bench/applies.cpp), for a tridiagonal matrix and for one with four times as
# many entries as rows, at random places. The two programs run in turn: the least processor time of some runs of each, and the most
# memory of one run that is resident.
# The shell counts processor time by 10 ms, so that a run on few rows is up to 20 runs of the program, and the time is their mean.
# Usage: sh bench/applies.sh [TIMES [ROWS]]: 5 times and 1,000,000 rows where nothing is given. A job has room for 1 to 2,097,152 rows.
set -eu
runs=${1:-5}
n=${2:-1000000}
repeats=$((200000 / n + 1))
if [ "$repeats" -gt 20 ]; then repeats=20; fi
home=$(CDPATH='' cd -- "$(dirname -- "$0")/.." && pwd)
work=$(mktemp -d)
trap 'rm -rf "$work"' EXIT
${CXX:-g++} -O2 -march=x86-64-v2 -o "$work/applies" "$home/bench/applies.cpp"
"$home/tpx" show 1 "$home/examples/a.mtx" >/dev/null
program=$home/crates/tpx/out/tpx

# 2 on the diagonal and -1 beside it, row by row.
tridiagonal() {
    awk -v n="$n" 'BEGIN {
        print "%%MatrixMarket matrix coordinate integer general"
        printf "%d %d %d\n", n, n, 3 * n - 2
        for (i = 1; i <= n; i++) {
            if (i > 1) printf "%d %d -1\n", i, i - 1
            printf "%d %d 2\n", i, i
            if (i < n) printf "%d %d -1\n", i, i + 1
        }
    }'
}

# Four times as many entries as rows, from -9 to 9, some at one place: three steps each of a linear congruential generator.
random() {
    awk -v n="$n" '
        function below(m) { state = state * 16807 % 2147483647; return state % m }
        BEGIN {
            state = 7
            print "%%MatrixMarket matrix coordinate integer general"
            printf "%d %d %d\n", n, n, 4 * n
            for (k = 0; k < 4 * n; k++) {
                i = below(n) + 1
                j = below(n) + 1
                printf "%d %d %d\n", i, j, below(19) - 9
            }
        }'
}

# job FILE: the matrix of the file applied ten times to the same vector.
job() {
    printf 'ranks = 4\n[[map]]\nkind = "uniform"\nname = "u"\nsize = %s\n[[vector]]\nname = "x"\nmap = "u"\nfill = 1\n' "$n"
    printf '[[matrix]]\nname = "a"\nkind = "assembled"\nrows = "u"\ndomain = "u"\nfile = "%s"\n' "$1"
    for k in 1 2 3 4 5 6 7 8 9 10; do printf '[[do]]\nop = "apply"\nname = "y%s"\nmatrix = "a"\nx = "x"\n' "$k"; done
    printf '[[do]]\nop = "print"\nvalue = "y10"\n'
}

# The processor time of a program with its words, in milliseconds.
took() {
    sh -c 'k=$1; shift; while [ "$k" -gt 0 ]; do "$@" >/dev/null; k=$((k - 1)); done; times' sh "$repeats" "$@" |
        awk -v repeats="$repeats" 'END { split($1, t, "m"); split($2, s, "m"); printf "%.1f\n", 1000 * (60 * t[1] + t[2] + 60 * s[1] + s[2]) / repeats }'
}
# The most resident memory of a program with its words, in KB.
memory() {
    if [ -x /usr/bin/time ]; then /usr/bin/time -f %M "$@" 2>&1 >/dev/null | tail -n 1; else echo unknown; fi
}
least() { sort -n "$1" | head -n 1; }
ratio() { awk -v a="$1" -v b="$2" 'BEGIN { if (b + 0 > 0) printf "%.2f", a / b; else printf "unknown" }'; }

echo "| matrix | rows | proved | C++ | ratio | proved, memory | C++, memory | ratio |"
echo "|---|---|---|---|---|---|---|---|"
# measure NAME: the matrix that the function of this name writes.
measure() {
    "$1" >"$work/$1.mtx"
    job "$work/$1.mtx" >"$work/$1.toml"
    "$program" run "$work/$1.toml" >"$work/a"
    "$work/applies" "$work/$1.mtx" fill 1 >"$work/b"
    cmp "$work/a" "$work/b"
    for _ in $(seq "$runs"); do
        took "$program" run "$work/$1.toml" >>"$work/$1.proved"
        took "$work/applies" "$work/$1.mtx" fill 1 >>"$work/$1.plain"
    done
    a=$(least "$work/$1.proved")
    b=$(least "$work/$1.plain")
    am=$(memory "$program" run "$work/$1.toml")
    bm=$(memory "$work/applies" "$work/$1.mtx" fill 1)
    echo "| $1 | $n | $a ms | $b ms | $(ratio "$a" "$b") | $am KB | $bm KB | $(ratio "$am" "$bm") |"
    rm "$work/$1.mtx" "$work/a" "$work/b"
}
measure tridiagonal
measure random
