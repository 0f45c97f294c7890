#!/bin/bash
# Shortens a schedule: bash scripts/shrink.sh FILE > DOCUMENT
exec python3 -B "$(dirname "$(readlink -f "$0")")/unity-tool" shrink "$@"
