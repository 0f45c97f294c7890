#!/bin/bash
# Checks all documents below a folder: bash scripts/check_all.sh FOLDER [JOBS]
exec python3 -B "$(dirname "$(readlink -f "$0")")/unity-tool" all "$@"
