#!/bin/bash
# Makes the library unity_web into a WebAssembly module: bash scripts/playground/module.sh OUT.wasm [--heap]
#
# With --heap it makes one of the heap alone, for try_heap.mjs.
# The toolchain's own target wasm64 refuses whatever reaches the heap of std. So the library is proved and compiled
# for x86-64, where usize has 64 bits too; and what the compiler hands to clang, an LLVM module with nothing of that
# processor in it but two lines and some attributes, is compiled again for wasm64, with a heap in C (heap.c). Then
# wasm-opt (Debian: binaryen) gives it a memory with 32-bit addresses, which every browser takes.
# The libraries below are those that scripts/test.sh or scripts/build.sh left in crates/*/out/rlib.
set -eu -o pipefail
if [ $# != 1 ] && [ "$*" != "${1:-} --heap" ]; then
    echo "usage: bash scripts/playground/module.sh OUT.wasm [--heap]" >&2
    exit 64
fi
out=$1
here=$(cd "$(dirname "$0")" && pwd)
top=$(cd "$here/../.." && pwd)
kit=${KIT:-$(dirname "$(rt doc)")}
clang=$kit/toolchain/bin/clang
work=$(mktemp -d)
trap 'rm -rf "$work"' EXIT

# A copy of the toolchain whose clang keeps the module that it is given, and compiles an empty file in its place.
# (The compiler runs it with an empty environment, so the paths stand in it.)
make_toolchain() {
    mkdir -p "$work/toolchain/bin"
    ln -s "$kit/toolchain/lib" "$work/toolchain/lib"
    for it in "$kit"/toolchain/bin/*; do
        ln -s "$it" "$work/toolchain/bin/"
    done
    rm "$work/toolchain/bin/clang"
    cat > "$work/toolchain/bin/clang" << END
#!/bin/bash
while [ \$# != 0 ]; do
    case \$1 in *.bc) cp "\$1" "$work/module.bc" ;; -o) out=\$2 ;; esac
    shift
done
exec "$clang" --target=x86_64-unknown-linux-gnu --no-default-config -c -x c /dev/null -o "\$out"
END
    chmod +x "$work/toolchain/bin/clang"
}

# Proves and compiles the library, and keeps its LLVM module.
compile() {
    local words=() names name
    read -r -a names < <(sed -n 's/^unity_web staticlib: *//p' "$top/crates.txt")
    for name in "${names[@]}"; do
        words+=(--extern "$name=$top/crates/$name/out/rlib/$name.rlib")
    done
    for name in "$top"/crates/*/out/rlib; do
        words+=(-L "dependency=$name")
    done
    (cd "$top/crates/unity_web" && "$kit/bin/rattle" build --crate-name unity_web src/lib.rt --crate-type staticlib \
        --extern "std=$kit/rlibs/std.rlib" -L "dependency=$kit/rlibs" "${words[@]}" --links unity_web= \
        --antt-project "$kit/rattle/logic/antt-project.json" --logic-built "$kit/logic_built" --jobs 1 \
        --backend llvm --toolchain "$work/toolchain" -o "$work/libunity_web.a") > "$work/verdict" 2>&1 ||
        { cat "$work/verdict" >&2; exit 1; }
    tail -n 1 "$work/verdict"
}

# Makes the module one for wasm64: the two lines of the target, and no processor among the attributes.
retarget() {
    "$clang" --target=x86_64-unknown-linux-gnu --no-default-config -S -emit-llvm -x ir "$work/module.bc" \
        -o "$work/module.ll"
    if grep -q '@llvm\.x86\.\|^module asm\| asm ' "$work/module.ll"; then
        echo "module.sh: the module has code of x86-64 alone" >&2
        exit 1
    fi
    local layout="e-m:e-p:64:64-p10:8:8-p20:8:8-i64:64-i128:128-n32:64-S128-ni:1:10:20" attributes
    attributes='target-cpu\|target-features\|tune-cpu\|probe-stack\|stack-probe-size'
    sed -e "s/^target datalayout = .*/target datalayout = \"$layout\"/" \
        -e 's/^target triple = .*/target triple = "wasm64-unknown-unknown"/' \
        -e "/^attributes #/s/ \"\($attributes\)\"=\"[^\"]*\"//g" "$work/module.ll" > "$work/module64.ll"
}

flags=(--target=wasm64-unknown-unknown --no-default-config -fintegrated-cc1 -O3 -ffunction-sections -fdata-sections
    -mcpu=mvp -mbulk-memory -msign-ext -mnontrapping-fptoint -mmutable-globals
    -mllvm -expand-div-rem-bits=64 -mllvm -trap-unreachable)
plain=(-ffreestanding -nostdinc -std=c11 -Wall -Werror)

# link EXPORT..: links the module and the heap, and nothing else: a name that is still open is an error, so the module
# imports nothing. Then it makes the addresses 32 bits wide.
link() {
    "$clang" "${flags[@]}" "${plain[@]}" -c "$here/heap.c" -o "$work/heap.o"
    (exec -a wasm-ld "$clang" -mwasm64 --fatal-warnings --no-entry --stack-first -z stack-size=8388608 \
        --gc-sections --strip-all "${@/#/--export=}" -o "$work/linked.wasm" "$work/module.o" "$work/heap.o")
    python3 "$here/drop_table.py" "$work/linked.wasm" "$work/wide.wasm"
    wasm-opt --enable-memory64 --enable-bulk-memory --enable-sign-ext --enable-mutable-globals \
        --enable-nontrapping-float-to-int --memory64-lowering "$work/wide.wasm" -o "$out"
}

if [ "${2:-}" = --heap ]; then
    "$clang" "${flags[@]}" "${plain[@]}" -c "$here/try_heap.c" -o "$work/module.o"
    link rattle_realloc
    exit
fi
make_toolchain
compile
retarget
"$clang" "${flags[@]}" -c -x ir "$work/module64.ll" -o "$work/module.o"
link unity_one unity_two unity_three
