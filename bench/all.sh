#!/bin/bash
# One table of one run: how long the commands take, and how much memory: bash bench/all.sh [PROGRAM]
#
# It has `demo` for rings of 8 to 64 places; `prove` of each example that is proved, and `check` of what was found;
# `check` of about 50 MB of certificates, in MB a second and bytes of memory for each byte of the document; and the
# peak memory of each. Where z3 and cvc5 are installed, their times on what `obligations` writes of each stand below. A
# time is the best of three. It runs the built program (`bash scripts/test.sh` builds it), or the one that is named. Run
# it with nothing else at work.
set -eu
top=$(cd "$(dirname "$0")/.." && pwd)
program=${1:-$top/crates/unity/out/unity}
work=$(mktemp -d)
trap 'rm -rf "$work"' EXIT

# row NAME INPUT COMMAND..: the least time of three runs of a command on this input, and its peak memory.
row() {
    local name=$1 input=$2 least='' used
    shift 2
    for _ in 1 2 3; do
        env time -f "%e %M" -o "$work/used" "$@" < "$input" > "$work/answer" || true
        used=$(tail -n 1 "$work/used")
        if [ -z "$least" ] || awk -v a="$used" -v b="$least" 'BEGIN { exit !(a + 0 < b + 0) }'; then least=$used; fi
    done
    echo "$least" | awk -v name="$name" -v said="$(head -n 1 "$work/answer" | cut -c 1-48)" \
        '{ printf "| %s | %.2f s | %.0f MB | %s |\n", name, $1, $2 / 1024, said }'
}

echo "| command | best time | peak memory | first line |"
echo "|---|---|---|---|"
for places in 8 16 32 64; do
    row "demo $places" /dev/null "$program" demo "$places"
done
for document in "$top"/examples/*.unity; do
    name=$(basename "$document" .unity)
    if head -n 1 "$document" | grep -q '^unity 1' && "$program" prove 1000000 < "$document" > "$work/found"; then
        row "prove $name" "$document" "$program" prove 1000000
        row "check $name" "$work/found" "$program" check
    fi
done
echo
bash "$top/bench/check.sh" "$program"
echo
echo "| obligations | best time | peak memory | first line |"
echo "|---|---|---|---|"
for document in "$top"/examples/*.unity; do
    name=$(basename "$document" .unity)
    "$program" obligations < "$document" > "$work/script.smt2" || continue
    for prover in z3 "cvc5 --incremental"; do
        if command -v "${prover%% *}" > /dev/null; then
            # shellcheck disable=SC2086
            row "$name by ${prover%% *}" /dev/null $prover "$work/script.smt2"
        fi
    done
done
