#!/bin/bash
# Says what the gate costs, by crate and kind of work, and what it would take on fewer processors:
#
#   bash scripts/gate_cost.sh sample FILE -- COMMAND ..     runs a command, as `rt ci`, and samples it
#   bash scripts/gate_cost.sh attach PID FILE               samples a run that is going already
#   bash scripts/gate_cost.sh report FILE ..                prints what the samples say
#
# A sample is what each process took that descends from the command, looked at every half second, and what its parent
# had waited for once it was gone. The report has minutes of processor for each crate: the proof, the proof of its
# tests, its edits, the linking, and the rest; and the minutes by the clock for two and four processors, found by
# handing out the work in the order of `rt ci` with RT_JOBS set. Of several samples the later one counts for what it
# has, so a part that was proved anew is given behind a sample of all. More by --help; --self-test tries the report.
set -eu
exec python3 -B "$(dirname "$0")/gate_cost" "$@"
