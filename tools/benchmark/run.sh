#!/usr/bin/env bash
# Times a program on the largest texts of each shape.
#   tools/benchmark/run.sh BIN [RUNS]
# BIN reads a text on standard input. The least time of RUNS runs (5 if not said) is taken, since whatever else the
# machine does only adds to it.
set -eu
if [ $# -lt 1 ]; then
    echo "usage: run.sh BIN [RUNS]" >&2
    exit 2
fi
bin=$1
runs=${2:-5}
here=$(cd "$(dirname "$0")" && pwd)
folder=$(mktemp -d)
trap 'rm -rf "$folder"' EXIT
python3 "$here/make_texts.py" "$folder"

# The least nanoseconds of several runs on a file.
least_time() {
    local least="" run start took
    for ((run = 0; run < runs; run++)); do
        start=$(date +%s%N)
        "$bin" <"$1" >"$folder/printed"
        took=$(($(date +%s%N) - start))
        if [ -z "$least" ] || [ "$took" -lt "$least" ]; then least=$took; fi
    done
    echo "$least"
}

: >"$folder/empty"
idle=$(least_time "$folder/empty")
awk -v t="$idle" 'BEGIN { printf "start and end of the program alone: %.4f s, taken off below\n\n", t / 1e9 }'
printf '%-10s %8s %9s %10s %12s %9s\n' shape bytes printed seconds 'ns a byte' ratio
for shape in posts deals calls schedules; do
    before=""
    for limit in 8192 16384 32768 65536; do
        text="$folder/$shape-$limit.txt"
        [ -e "$text" ] || continue
        bytes=$(wc -c <"$text")
        took=$(($(least_time "$text") - idle))
        if [ "$took" -lt 1 ]; then took=1; fi
        printed=$(wc -c <"$folder/printed")
        awk -v s="$shape" -v b="$bytes" -v p="$printed" -v t="$took" -v l="$before" 'BEGIN {
            ratio = l == "" ? "-" : sprintf("%.2f", t / l)
            printf "%-10s %8d %9d %10.5f %12.1f %9s\n", s, b, p, t / 1e9, t / b, ratio }'
        before=$took
    done
done
