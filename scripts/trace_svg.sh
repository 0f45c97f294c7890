#!/bin/bash
# Draws a trace: bash scripts/trace_svg.sh < TRACE > PICTURE
exec python3 -B "$(dirname "$(readlink -f "$0")")/unity-tool" trace "$@"
