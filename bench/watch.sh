#!/bin/bash
# How many choices a second `unity watch` reads, beside `unity replay` of the same schedule:
# bash bench/watch.sh [PROGRAM [SHARE]]
#
# The documents are Peterson's protocol as it stands in examples/, with all its steps, and again with those alone that
# have no parameters; a ring of 64 places with its progress; and a counter whose proof has 4,096 cases. The schedules
# take each instance once in every round, in random order, the same in each run. A time is the best of five, and what
# the same document takes with no choice is taken off. It runs the built program (`bash scripts/test.sh` builds it), or
# the one that is named; with SHARE, on a part of the choices, as a tenth for 10. Run it with nothing else at work.
set -eu
top=$(cd "$(dirname "$0")/.." && pwd)
program=${1:-$top/crates/unity/out/unity}
share=${2:-1}
work=$(mktemp -d)
trap 'rm -rf "$work"' EXIT

# peterson: the example without its schedule.
peterson() {
    awk '/^(certificates|schedule)/ { exit } { print }' "$top/examples/peterson.unity"
}

# plain: of a document those steps of the proof that have no parameters and are `by text`.
plain() {
    awk '
        /^proof / { inside = 1; print; next }
        inside && /^end/ { inside = 0 }
        !inside { print; next }
        { step = step $0 "\n" }
        /;[ ]*(#.*)?$/ { if (step ~ /^ *[a-z_0-9]+: (defined|invariant)/) printf "%s", step; step = "" }
    '
}

# ring N: a token on a ring of N places comes home, and goes round.
ring() {
    awk -v last="$(($1 - 1))" 'BEGIN {
        print "unity 1\nprogram Ring\ndeclare\n  at : 0.." last "\ninitially\n  at = " last "\nassign"
        print "  <[] i : 1.." last " :: pass: at := i - 1 if at = i |>\n  [] wrap: at := " last " if at = 0\nend"
        print "proof Ring\n  safe: defined by text;"
        print "  step(m : 1.." last "): true and at = m ensures (true and at < m) or at = 0 by text with pass[m];"
        print "  goal: true leadsto at = 0 by induct(m : 1.." last ", at, true, at = 0, from step[m]);"
        print "  home: at = 0 ensures at = " last " by text with wrap;"
        print "  again: true leadsto at = " last " by trans(from goal, from home);\nend"
    }'
}

# cases: a counter that goes round, and a proof with 4,096 cases.
cases() {
    echo "unity 1
program Count
declare
  x : 0..3
initially
  x = 0
assign
  inc: x := x + 1 if x < 3 ~ 0 if x = 3
end
proof Count
  safe: defined by text;
  lim(m : 3..4097): stable x <= m by text;
end"
}

# schedule PROGRAM CHOICES INSTANCE..: so many choices, each instance once in every round, in random order.
schedule() {
    local name=$1 count=$2
    shift 2
    awk -v name="$name" -v count="$count" -v names="$*" 'BEGIN {
        srand(1)
        size = split(names, instance, " ")
        printf "schedule %s :", name
        for (made = 0; made < count; made++) {
            left = made % size ? left - 1 : size
            at = int(rand() * left) + 1
            chosen = instance[at]; instance[at] = instance[left]; instance[left] = chosen
            printf "%s\n  %s", made ? "," : "", chosen
        }
        print "\nend"
    }'
}

# seconds WORD DOCUMENT: the least time of five runs.
seconds() {
    for _ in 1 2 3 4 5; do
        env time -f "%e" -o "$work/used" "$program" "$1" < "$2" > "$work/answer" || true
        tail -n 1 "$work/used"
    done | sort -n | head -n 1
}

# watched NAME PROGRAM CHOICES INSTANCE..: the speeds of both commands on the document here.
watched() {
    local name=$1 of=$2 choices=$(($3 / share)) word
    shift 3
    cat > "$work/text"
    { cat "$work/text"; schedule "$of" 0; } > "$work/none"
    { cat "$work/text"; schedule "$of" "$choices" "$@"; } > "$work/full"
    for word in replay watch; do
        echo "$(seconds "$word" "$work/full") $(seconds "$word" "$work/none")"
    done | awk -v name="$name" -v choices="$choices" '
        { time[NR] = $1 - $2 > 0.01 ? $1 - $2 : 0.01 }
        END { printf "%s: %d choices, watch %.0f a second, replay %.0f, %.1f times as long\n", \
            name, choices, choices / time[2], choices / time[1], time[2] / time[1] }'
    "$program" watch < "$work/full" > "$work/answer" || head -n 1 "$work/answer"
}

instances=$(for label in ask give enter leave; do echo "${label}[0] ${label}[1]"; done)
# shellcheck disable=SC2086
peterson | watched "Peterson, all steps" Peterson 300000 $instances
# shellcheck disable=SC2086
peterson | plain | watched "Peterson, one case a step" Peterson 300000 $instances
# shellcheck disable=SC2046
ring 64 | watched "ring of 64" Ring 100000 $(for i in $(seq 63); do echo "pass[$i]"; done) wrap
cases | watched "4,096 cases" Count 5000 inc
