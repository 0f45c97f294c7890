#!/bin/bash
# Writes the files in editors/: bash scripts/editors.sh [--check]
exec python3 -B "$(dirname "$(readlink -f "$0")")/unity-tool" editors "$@"
