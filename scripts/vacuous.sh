#!/bin/bash
# Tells steps that say nothing: bash scripts/vacuous.sh FILE
exec python3 -B "$(dirname "$(readlink -f "$0")")/unity-tool" vacuous "$@"
