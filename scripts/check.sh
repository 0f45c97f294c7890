#!/bin/bash
# Checks documents: bash scripts/check.sh FILE..
exec python3 -B "$(dirname "$(readlink -f "$0")")/unity-tool" check "$@"
