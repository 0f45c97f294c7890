#!/bin/bash
# What hostile documents cost: bash bench/hostile.sh [PROGRAM] [--only NAME ..] [--table NAME]
#
# Texts of a hundred bytes up to some hundred KB that make the program copy, count or look up much. The first table has
# each family of documents at a size, at twice and at four times the size, with processor time and peak memory of the
# command that it is hardest for, and the power by which the time grows. The second has each document of at most 64 KB
# with every command. The third has `obligations` beside `check`. It ends with status 1 where a power passes 1.3, where
# a text of 64 KB asks for more than 1 GB, for 20 s of a command or for 60 s of `prove`, or where `obligations` takes
# more than twice what `check` does; but for documents of which the table tells a reason. `--list` names the documents.
# It runs the built program (`bash scripts/test.sh` builds it), or the one that is named; with nothing else at work.
set -eu
exec python3 -B "$(dirname "$0")/hostile" "$@"
