#!/bin/bash
# Tries the commands of a page: bash scripts/page.sh FILE
exec python3 -B "$(dirname "$(readlink -f "$0")")/unity-tool" page "$@"
