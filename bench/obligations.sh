#!/bin/bash
# What `obligations` costs beside `check` of the same document without certificates: bash bench/obligations.sh [PROGRAM]
#
# Each document of examples/ whose steps follow their rules has a line: how many obligations it has, the length of the
# script, and of both commands the processor time, the least of three, and the peak memory. `check` ends at the first
# certificate that is missing, so `prove` of the whole stands beside. The last two columns say how many times the time
# and the memory of `check` it took. It runs the built program (`bash scripts/build.sh` builds it), or the one that is
# named. Run it with nothing else at work. bench/hostile.sh does the same with documents that are made to cost much.
set -eu
top=$(cd "$(dirname "$0")/.." && pwd)
program=${1:-$top/crates/unity/out/unity}
work=$(mktemp -d)
trap 'rm -rf "$work"' EXIT

# least FILE WORD..: the least processor time of three runs in seconds, and the greatest peak memory in KB.
least() {
    local file=$1
    shift
    for _ in 1 2 3; do
        env time -f "%U %S %M" -o "$work/used" "$program" "$@" < "$file" > /dev/null || true
        tail -n 1 "$work/used"
    done | awk '{
        if (NR == 1 || $1 + $2 < time) time = $1 + $2
        if ($3 > most) most = $3
    } END { print time, most }'
}

echo "| document | obligations | script | \`check\` | \`obligations\` | \`prove\` | times the time | times the memory |"
echo "|---|---|---|---|---|---|---|---|"
for document in "$top"/examples/*.unity; do
    sed '/^certificates$/,$d' "$document" > "$work/document"
    if "$program" obligations < "$work/document" > "$work/script" && grep -q '^; obligation ' "$work/script"; then
        echo "$(least "$work/document" check) $(least "$work/document" obligations) $(least "$work/document" \
            prove 1000000)" | awk -v name="$(basename "$document" .unity)" -v size="$(wc -c < "$work/script")" \
            -v count="$(grep -c '^; obligation ' "$work/script")" '
                function over(one, least) { return one > least ? one : least }
                {
                    printf "| %s | %d | %.0f KB | %.2f s, %.1f MB |", name, count, size / 1024, $1, $2 / 1024
                    printf " %.2f s, %.1f MB | %.2f s | %.1f |", $3, $4 / 1024, $5, over($3, 0.01) / over($1, 0.01)
                    printf " %.1f |\n", $4 / $2
                }'
    fi
done
