#!/bin/bash
# Refuses memory, reads and writes: bash scripts/ends.sh [EACH [PROGRAM]]
exec python3 -B "$(dirname "$(readlink -f "$0")")/unity-tool" ends "$@"
