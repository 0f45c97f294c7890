#!/bin/bash
# Finds the certificates of a document: bash scripts/prove.sh FILE [BUDGET]
exec python3 -B "$(dirname "$(readlink -f "$0")")/unity-tool" prove "$@"
