#!/bin/sh
# pictures.sh JOB PNG: plans the job or the hall, draws the plan, and has rsvg-convert (Debian: librsvg2-bin, fonts-dejavu-core) make a picture of it.
set -eu
command -v rsvg-convert > /dev/null || { echo "pictures.sh: rsvg-convert is needed (Debian: librsvg2-bin)" >&2; exit 1; }
scratch=$(mktemp -d)
trap 'rm -rf "$scratch"' EXIT
if head -n 1 "$1" | grep -q '^machines='; then
    target/release/juzvarola hall "$1" -o "$scratch/plan.svg"
else
    target/release/juzvarola plan "$1" -o "$scratch/plan.txt"
    target/release/juzvarola draw "$1" "$scratch/plan.txt" -o "$scratch/plan.svg"
fi
rsvg-convert --background-color=white -o "$2" "$scratch/plan.svg"
[ -s "$2" ] || { echo "pictures.sh: no picture" >&2; exit 1; }
