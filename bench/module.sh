#!/bin/bash
# How many instructions the program takes, at any commit: bash bench/module.sh [COMMIT..]
#
# The page for a browser (playground/unity.html) has the program in it, as a WebAssembly module; so each commit that
# made it anew keeps a program of its own. wasm2c (Debian: wabt) makes C of it, gcc compiles that with -O1, and
# valgrind's callgrind counts the instructions of `prove 1000000` on Peterson's protocol and of `check` of what was
# found. These are not the native program's counts: addresses are checked and the heap is another one. But they are
# counted alike for all commits, whatever else the machine does. Without a commit, the page that is here is counted.
set -eu -o pipefail
top=$(cd "$(dirname "$0")/.." && pwd)
runtime=${WASM2C:-/usr/share/wabt/wasm2c}
work=$(mktemp -d)
trap 'rm -rf "$work"' EXIT

# counted OUT WORD.. < DOCUMENT: the instructions, in millions; what is written goes to OUT.
counted() {
    local out=$1
    shift
    valgrind --tool=callgrind --callgrind-out-file="$work/counts" "$work/module" "$@" 2> "$work/told" > "$out"
    awk '/Collected/ { printf "%.1f", $4 / 1000000 }' "$work/told"
}

# page COMMIT: the page that it has.
page() {
    if [ "$1" = here ]; then
        cat "$top/playground/unity.html"
    else
        git -C "$top" show "$1:playground/unity.html"
    fi
}

printf '%-12s %14s %14s\n' commit prove check
for commit in "${@:-here}"; do
    page "$commit" | grep -oE '[A-Za-z0-9+/=]{10000,}' | head -n 1 | base64 -d > "$work/module.wasm"
    (cd "$work" && wasm2c module.wasm -n module -o module.c)
    cp "$top/bench/module.c" "$work/main.c"
    gcc -O1 -w -I "$runtime" -I "$work" "$work/main.c" "$work/module.c" "$runtime/wasm-rt-impl.c" -lm -o "$work/module"
    prove=$(counted "$work/found" prove 1000000 < "$top/examples/peterson.unity")
    check=$(counted "$work/answer" check < "$work/found")
    printf '%-12s %12s M %12s M\n' "$commit" "$prove" "$check"
done
