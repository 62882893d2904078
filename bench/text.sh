#!/bin/sh
# Times the reading and the writing of coordinate text by the proved program, each beside a plain C++ program
# (bench/read.cpp, bench/write.cpp): the least of 25 runs, whole processes. Usage: sh bench/text.sh [ENTRIES]
#
# reading: `tpx show` of a file that is refused at its very end, for one line too many, beside the same entries read by
# the C++ program. Its most memory is that of GNU time, where it is installed. writing: what a run of `tpx show` to
# /dev/null takes more than one to /dev/full, whose first write fails, beside as many places written by the C++ program.
set -e
entries=${1:-1000000}
home=$(CDPATH='' cd -- "$(dirname -- "$0")/.." && pwd)
work=$(mktemp -d)
trap 'rm -rf "$work"' EXIT
${CXX:-g++} -O2 -march=x86-64-v2 -o "$work/read" "$home/bench/read.cpp"
${CXX:-g++} -O2 -march=x86-64-v2 -o "$work/write" "$home/bench/write.cpp"
"$home/tpx" show 1 "$home/examples/a.mtx" >/dev/null
program=$home/crates/tpx/out/tpx

least() { # output, command..
    out=$1
    shift
    best=
    for run in $(seq 25); do
        start=$(date +%s%N)
        "$@" >"$out" 2>/dev/null || true
        end=$(date +%s%N)
        took=$(((end - start) / 1000))
        if [ -z "$best" ] || [ "$took" -lt "$best" ]; then best=$took; fi
    done
    echo "$best"
}

awk -v announced="$entries" -v n="$entries" -f "$home/bench/entries.awk" >"$work/whole.mtx"
awk -v announced="$entries" -v n="$((entries + 1))" -f "$home/bench/entries.awk" >"$work/extra.mtx"
proved=$(least /dev/null "$program" show 2 "$work/extra.mtx")
plain=$(least /dev/null "$work/read" "$work/whole.mtx")
echo "reading $entries entries, $(wc -c <"$work/whole.mtx") bytes: proved $proved us, C++ $plain us"
if [ -x /usr/bin/time ]; then
    /usr/bin/time -f %M -o "$work/memory" "$program" show 2 "$work/extra.mtx" >/dev/null 2>&1 || true
    memory=$(tail -n 1 "$work/memory")
    echo "memory while reading: $memory KB, or $(((memory * 1024 - $(wc -c <"$work/extra.mtx")) / entries)) bytes an entry beside the file's own"
fi
failing=$(least /dev/full "$program" show 2 "$work/whole.mtx")
whole=$(least /dev/null "$program" show 2 "$work/whole.mtx")
plain=$("$work/write" 2>&1 >/dev/null | awk '$2 == 0 && (best == "" || $4 < best) { best = $4 } END { print best }')
echo "writing $entries places: proved $((whole - failing)) us; C++ 1000000 places of numbers below 100: $plain us"
