#!/bin/sh
# How many instances of a statement a second `unity check` brings into core form, and how much memory one takes.
#
# Each instance has 20 nodes. It runs the built program (`bash scripts/test.sh` builds it) on documents without a
# proof, of 512 to 4,096 instances, in 40 programs each, so that the time is long enough to be read, and takes off
# what a document with one instance a program takes. Run it with nothing else at work.
set -eu
top=$(cd "$(dirname "$0")/.." && pwd)
program=${1:-$top/crates/unity/out/unity}
work=$(mktemp -d)
trap 'rm -rf "$work"' EXIT

# A document of 40 programs with so many instances each.
made() {
    awk -v count="$1" 'BEGIN {
        print "unity 1"
        for (p = 1; p <= 40; p++) {
            printf "program P%d declare x%d : 0..9 y%d : 0..9 assign\n", p, p, p
            printf "  <[] i : 1..%d :: s%d: x%d := x%d + i - y%d if x%d < i and y%d > 3 + i |> end\n",
                count, p, p, p, p, p, p
        }
    }'
}

# The least seconds of five runs, and the kilobytes of memory then.
best() {
    made "$1" >"$work/document"
    for _ in 1 2 3 4 5; do
        env time -f "%e %M" -o "$work/used" "$program" check <"$work/document" >"$work/answer" || true
        tail -n 1 "$work/used"
    done | sort -n | head -n 1
}

base=$(best 1)
for count in 512 1024 2048 4096; do
    echo "$count $(best "$count") $base"
done | awk '{
    all = 40 * $1
    printf "%d instances a program: %.0f a second, %.0f bytes each\n", $1, all / ($2 - $4), ($3 - $5) * 1024 / all }'
