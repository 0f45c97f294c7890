#!/bin/bash
# Says what a reader of the theorem has to read: bash scripts/reading.sh [--check | --write | --text PART]
exec python3 -B "$(dirname "$(readlink -f "$0")")/unity-tool" reading "$@"
