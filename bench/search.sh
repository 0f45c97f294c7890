#!/bin/bash
# What searches take, beside z3: bash bench/search.sh [PROGRAM] [--only NAME ..] [--instructions] [--write FAMILY SIZE]
#
# Each example that is proved whole has a row: the obligations, the units of all their certificates together and the
# most of one, and the processor time of `prove` and of `check` of what it found, in thousandths of a second, the least
# of three; and where z3 is there, its time on what `obligations` writes, and how many times that of `prove` it is. A
# unit is a node, or a pair of one. The second table has families of documents at several sizes, and by which power of
# the size units and time grow. `--instructions` has valgrind count what a unit takes, of the whole run; `--write`
# prints a document of a family. It runs the built program (`bash scripts/build.sh` builds it), or the one that is
# named. Run it with nothing else at work.
set -eu
exec python3 -B "$(dirname "$0")/search" "$@"
