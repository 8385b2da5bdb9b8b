#!/bin/sh
# growing.sh [RUNS]: what growing walks cost. Walks the counted walk of long jobs by one call (--once) and with growing walk numbers in turn, and prints the least and the median
# CPU seconds of each, and their ratios: two walks that reach their number, and one that ends by itself. `make` first.
set -eu
cd "$(dirname "$0")/.."
runs=${1:-5}
scratch=$(mktemp -d)
trap 'rm -rf "$scratch"' EXIT

# CPU milliseconds that a run takes: took JOB WALK WORDS
took() {
    job=$1 walk=$2; shift 2
    bash -c 'TIMEFORMAT=%U; { time "$@" 2> /dev/null || [ $? = 3 ]; } 2>&1' x target/release/juzvarola plan "../jobs/$job.txt" --count-nodes --walk "$walk" -o "$scratch/plan" "$@" | tr -d .
}

for case in "14_full64_4 250000000" "15_full64_8 200000000" "33_biweek8_head_d60 4000000000"; do
    set -- $case
    : > "$scratch/once"; : > "$scratch/growing"
    for run in $(seq "$runs"); do
        took "$1" "$2" --once >> "$scratch/once"
        took "$1" "$2" >> "$scratch/growing"
    done
    for kind in once growing; do
        sort -n "$scratch/$kind" > "$scratch/sorted"
        echo "$(sed -n 1p "$scratch/sorted") $(sed -n "$(((runs + 1) / 2))p" "$scratch/sorted")"
    done | tr '\n' ' ' | awk -v job="$1" -v walk="$2" '{ printf "%s to %s: once least %.2f median %.2f, growing least %.2f median %.2f, ratios %.2f %.2f\n", job, walk, $1/1000, $2/1000, $3/1000, $4/1000, $3/$1, $4/$2 }'
done
