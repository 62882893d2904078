#!/bin/sh
# Times `tpx run` of jobs whose ranks exchange letters. First a vector that goes from a uniform to a cyclic map and back ten
# times, on 4 ranks, beside the same letters in C++ (bench/moves.cpp): the least processor time of 3 runs, and the most memory
# that is resident. Then small vectors on 32 ranks, moved by 50 to 200 statements, which is linear in the letters.
# Usage: sh bench/moves.sh [NUMBERS]
set -eu
n=${1:-4000000}
home=$(CDPATH='' cd -- "$(dirname -- "$0")/.." && pwd)
work=$(mktemp -d)
trap 'rm -rf "$work"' EXIT
${CXX:-g++} -O2 -march=x86-64-v2 -o "$work/moves" "$home/bench/moves.cpp"
"$home/tpx" show 1 "$home/examples/a.mtx" >/dev/null
program=$home/crates/tpx/out/tpx

# job SIZE RANKS MOVES: a filled vector that goes there and back, so many moves in all.
job() {
    printf 'ranks = %s\n' "$2"
    printf '[[map]]\nkind = "uniform"\nname = "u"\nsize = %s\n[[map]]\nkind = "cyclic"\nname = "c"\nsize = %s\n' "$1" "$1"
    printf '[[vector]]\nname = "y0"\nmap = "u"\nfill = 7\n'
    awk -v moves="$3" 'BEGIN { for (k = 1; k <= moves; k++) printf "[[do]]\nop = \"move\"\nname = \"y%d\"\nfrom = \"y%d\"\nmap = \"%s\"\n", k, k - 1, k % 2 ? "c" : "u" }'
}

# The least processor time of 3 runs, in milliseconds, and the most resident memory of one, in KB.
least() {
    for _ in 1 2 3; do
        sh -c '"$@" >/dev/null; times' sh "$@" | awk 'END { split($1, t, "m"); split($2, s, "m"); printf "%.0f\n", 1000 * (60 * t[1] + t[2] + 60 * s[1] + s[2]) }'
    done | sort -n | head -n 1
}
memory() {
    if [ -x /usr/bin/time ]; then /usr/bin/time -f %M "$@" 2>&1 >/dev/null | tail -n 1; else echo unknown; fi
}

job "$n" 4 20 >"$work/j.toml"
echo "numbers $n, moved 20 times on 4 ranks"
echo "proved $(least "$program" run "$work/j.toml") ms, $(memory "$program" run "$work/j.toml") KB"
echo "C++    $(least "$work/moves" "$n" 10) ms, $(memory "$work/moves" "$n" 10) KB"

for moves in 50 100 200; do
    job 1024 32 "$moves" >"$work/small.toml"
    letters=$("$program" run "$work/small.toml" --traffic | awk '/^traffic/ { print $3 }')
    echo "32 ranks, $moves moves of 1,024 numbers, $letters letters: $(least "$program" run "$work/small.toml") ms"
done
