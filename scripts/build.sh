#!/bin/bash
# Proves the crates that `unity` is linked from, and builds it: bash scripts/build.sh [NAME]
#
# No test and no edit is tried, so this takes far less time than the gate. It takes all processors, or as many crates
# at a time as RT_JOBS says, whatever memory there is; a check that is killed, most likely for want of it, is run once
# more with nothing beside it. After each crate it says how many of all are done, in how many minutes, and how many
# minutes of processor may be left, which it reckons from the lines of the crates. A run that was cut off goes on where
# it was. The built program is crates/unity/out/unity, which the other scripts take. Given the name of a library, this
# proves that library and what it stands on, and links nothing.
set -eu
cd "$(dirname "$0")/.."
exec python3 -B scripts/build.py "$@"
