#!/bin/bash
# Says what certificates cost: bash scripts/cost.sh FILE [--using] [BUDGET]
exec python3 -B "$(dirname "$(readlink -f "$0")")/unity-tool" cost "$@"
