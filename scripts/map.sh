#!/bin/bash
# Writes the tables of rooms and crates: bash scripts/map.sh [--check]
exec python3 -B "$(dirname "$(readlink -f "$0")")/unity-tool" map "$@"
