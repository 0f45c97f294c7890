#!/bin/bash
# Tries random schedules: bash scripts/try.sh FILE PROGRAM COUNT SEED [--step NAME] > DOCUMENT
exec python3 -B "$(dirname "$(readlink -f "$0")")/unity-tool" try "$@"
