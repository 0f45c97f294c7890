#!/bin/bash
# Says why a document is refused: bash scripts/why.sh FILE [BUDGET]
exec python3 -B "$(dirname "$(readlink -f "$0")")/unity-tool" why "$@"
