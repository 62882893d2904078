#!/bin/sh
# Times `tpx show` on a coordinate file with entries at random places: reading, gathering and writing apart, each the
# least of 25 runs. Usage: sh bench/show.sh [ENTRIES [RANKS]]
#
# reading: a file that is refused at its very end, for one line too many; gathering: what an output that fails at once
# takes more; writing: what a whole run takes more.
set -e
entries=${1:-1000000}
ranks=${2:-2}
home=$(CDPATH='' cd -- "$(dirname -- "$0")/.." && pwd)
work=$(mktemp -d)
trap 'rm -rf "$work"' EXIT

least() { # output file, matrix file
    best=
    for run in $(seq 25); do
        start=$(date +%s%N)
        "$home/crates/tpx/out/tpx" show "$ranks" "$2" >"$1" 2>/dev/null || true
        end=$(date +%s%N)
        took=$(((end - start) / 1000000))
        if [ -z "$best" ] || [ "$took" -lt "$best" ]; then best=$took; fi
    done
    echo "$best"
}

"$home/tpx" show 1 "$home/examples/a.mtx" >/dev/null
awk -v announced="$entries" -v n="$entries" -f "$home/bench/entries.awk" >"$work/whole.mtx"
awk -v announced="$entries" -v n="$((entries + 1))" -f "$home/bench/entries.awk" >"$work/extra.mtx"
reading=$(least /dev/null "$work/extra.mtx")
gathered=$(least /dev/full "$work/whole.mtx")
whole=$(least "$work/shown.mtx" "$work/whole.mtx")
echo "entries $entries, ranks $ranks, bytes $(wc -c <"$work/whole.mtx")"
echo "reading   $reading ms"
echo "gathering $((gathered - reading)) ms"
echo "writing   $((whole - gathered)) ms"
echo "whole     $whole ms"
