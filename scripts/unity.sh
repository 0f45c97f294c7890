#!/bin/bash
# Runs `unity` on standard input: bash scripts/unity.sh WORD.. < FILE
tool=$(dirname "$(readlink -f "$0")")/unity-tool
if [ -d /dev/stdin ]; then
    # Python does not start on a folder, which `unity` is to find unreadable
    UNITY_INPUT=3 exec python3 -B "$tool" unity "$@" 3<&0 < /dev/null
fi
exec python3 -B "$tool" unity "$@"
