#!/bin/bash
# Tries a leads-to on all executions of 8 steps: bash scripts/bounds.sh FILE PROGRAM [P Q BOUND INSTANCE..]
exec python3 -B "$(dirname "$(readlink -f "$0")")/unity-tool" bounds "$@"
