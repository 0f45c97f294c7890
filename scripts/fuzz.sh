#!/bin/bash
# Changes documents at random: bash scripts/fuzz.sh SECONDS SEED > DOCUMENT
exec python3 -B "$(dirname "$(readlink -f "$0")")/unity-tool" fuzz "$@"
