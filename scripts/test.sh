#!/bin/bash
# Runs the gate: every proof, every edit that must be refused, every test, and the program as two compilers build it;
# then the tests of the built program. With --built it does the latter alone, which `scripts/unity-tool run-tests` are:
# its options may follow. With --help it says so, and runs nothing.
set -eu
if [ "${1:-}" = --help ] || [ "${1:-}" = -h ]; then
    sed -n '2,/^set/{/^set/d; s/^# //; p}' "$0"
    exit 0
fi
cd "$(dirname "$0")/.."
if [ "${1:-}" = --built ]; then
    shift
else
    RT_JOBS=${RT_JOBS:-$(nproc)} rt ci
fi
exec python3 -B scripts/unity-tool run-tests "$@"
