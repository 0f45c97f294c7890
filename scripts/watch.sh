#!/bin/bash
# Reads the claims of a proof on a schedule: bash scripts/watch.sh FILE
exec python3 -B "$(dirname "$(readlink -f "$0")")/unity-tool" watch "$@"
