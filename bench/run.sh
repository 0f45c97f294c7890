#!/bin/bash
# How many steps `unity run` and `unity fixed` take in a second, with the text of each written to a file, and how much
# memory.
#
# The programs are a ring of 64 places with one token, for 1,000,000 steps, and a program of 4,096 statements over
# 1,000 variables, for 10,000 and 100,000 steps: the memory is not to grow with the steps. Neither comes to a fixed
# point, so `fixed` looks for one at each state. It runs the built program (`bash scripts/test.sh` builds it), or the
# one that is named. Run it with nothing else at work. The text of the second program takes 900 MB of disk, in the
# folder that TMPDIR names.
set -eu
top=$(cd "$(dirname "$0")/.." && pwd)
program=${1:-$top/crates/unity/out/unity}
work=$(mktemp -d)
trap 'rm -rf "$work"' EXIT

cat > "$work/Ring" <<'END'
unity 1
program Ring
declare
  at : 0..63
initially
  at = 63
assign
  <[] i : 1..63 :: pass: at := i - 1 if at = i |>
  [] wrap: at := 63 if at = 0
end
END

cat > "$work/Wide" <<'END'
unity 1
program Wide
declare
  x : array 0..999 of 0..1
assign
  <[] i : 0..999 :: <[] k : 0..3 :: flip: x[i] := 1 - x[i] |> |>
  [] <[] k : 0..95 :: same: x[k] := x[k] |>
end
END

# steps_of WORD PROGRAM STEPS: by this word runs so many steps of a program three times, and prints the best speed.
steps_of() {
    local least='' used
    for _ in 1 2 3; do
        env time -f "%e %M" -o "$work/used" "$program" "$1" "$2" "$3" < "$work/$2" > "$work/answer" || true
        used=$(tail -n 1 "$work/used")
        if [ -z "$least" ] || awk -v a="$used" -v b="$least" 'BEGIN { exit !(a + 0 < b + 0) }'; then least=$used; fi
    done
    echo "$least" | awk -v name="$1 $2" -v steps="$3" -v size="$(wc -c < "$work/answer")" '{
        if ($1 == 0) $1 = 0.01
        printf "%s: %d steps in %.2f s, %.0f steps/s, %.1f MB/s of text, %d KB of memory\n", \
            name, steps, $1, steps / $1, size / 1e6 / $1, $2 }'
    tail -n 1 "$work/answer" | cut -c1-100
}

steps_of run Ring 1000
steps_of run Ring 1000000
steps_of run Wide 10000
steps_of run Wide 100000
steps_of fixed Ring 1000000
steps_of fixed Wide 10000
