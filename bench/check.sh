#!/bin/bash
# How fast `unity check` judges a document of about 50 MB of certificates, and how much memory it takes for each
# byte. Beside it stand `wc -w` and `cat` on the same file, which do little more than read it.
#
# It runs the built program (`bash scripts/test.sh` builds it), or the one that is named, several times, and prints
# the best time of each and the peak memory. Run it with nothing else at work.
set -eu
top=$(cd "$(dirname "$0")/.." && pwd)
program=${1:-$top/crates/unity/out/unity}
invariants=${2:-11200}
work=$(mktemp -d)
trap 'rm -rf "$work"' EXIT

# One invariant, many times: 2 * x is not 2 * y + 1. The certificates of its two obligations are trees of all kinds
# of nodes: they split both variables, round, and take cases, though a sum below one round would do.
awk -v count="$invariants" '
    # The fact that round gives, and the sum that closes, where `first` is the first of the two facts of the
    # equation and `next_fact` the number of the next one.
    function closing(first, next_fact) {
        return sprintf("round 2 1*%d sum 1*%d 2*%d ", first, first + 1, next_fact)
    }
    # Splits of x at 0 to 7 and then of y: each adds a fact to either side.
    function splits(depth, first, next_fact) {
        if (depth == 0) return closing(first, next_fact)
        return sprintf("split %d %d %s%s", depth % 2 + 1, depth + 1, closing(first, next_fact + 1), \
            splits(depth - 1, first, next_fact + 1))
    }
    BEGIN {
        print "unity 1\nprogram Even\ndeclare\n  x : 0..9\n  y : 0..9\nassign\n  stay: x := x\nend"
        print "proof Even\n  safe: defined by text;"
        for (i = 1; i <= count; i++)
            printf "  odd%d: invariant not (2 * x = 2 * y + 1) by text;\n", i
        print "end\ncertificates\n1: case 1 sum 1*1 1*3 sum 1*2 1*3;"
        first = splits(60, 5, 7)
        later = "case 2 case 2 sum 1*1 1*5 sum 1*2 1*5 " splits(60, 5, 7)
        sub(/ $/, "", first)
        sub(/ $/, "", later)
        for (i = 1; i <= count; i++)
            printf "%d: %s;\n%d: %s;\n", 2 * i, first, 2 * i + 1, later
        print "end"
    }' > "$work/document"

# best NAME COMMAND..: the least time of five runs of a command on the document, and its peak memory.
best() {
    local name=$1 least='' used
    shift
    for _ in 1 2 3 4 5; do
        env time -f "%e %M" -o "$work/used" "$@" < "$work/document" > "$work/answer" || true
        used=$(tail -n 1 "$work/used")
        if [ -z "$least" ] || awk -v a="$used" -v b="$least" 'BEGIN { exit !(a + 0 < b + 0) }'; then least=$used; fi
    done
    echo "$least" | awk -v name="$name" -v size="$(wc -c < "$work/document")" '{
        if ($1 == 0) $1 = 0.01
        printf "%s: %.2f s, %.1f MB/s (%d bytes), %.1f bytes of memory for each byte\n", \
            name, $1, size / 1e6 / $1, size, $2 * 1024 / size }'
}

best "unity check" "$program" check
head -n 1 "$work/answer"
best "wc -w" wc -w
best "cat" cat
