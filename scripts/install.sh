#!/bin/bash
# Puts all of this under one folder: bash scripts/install.sh [PREFIX]
exec python3 -B "$(dirname "$(readlink -f "$0")")/unity-tool" install "$@"
