#!/bin/sh
# How fast `lex` reads a text of 8 MiB, beside `wc -w` on the same text.
#
# It copies the crates into a temporary repository, adds a program that times `lex`, proves and
# builds both there, and prints the best of several runs of each. Run it with nothing else at work.
set -eu
size=8388608
top=$(cd "$(dirname "$0")/.." && pwd)
work=$(mktemp -d)
trap 'rm -rf "$work"' EXIT

mkdir -p "$work/crates"
for name in unity_base case_tables unity_syntax unity_lexer; do
    mkdir "$work/crates/$name"
    for part in src specs proofs; do
        if [ -d "$top/crates/$name/$part" ]; then
            cp -r "$top/crates/$name/$part" "$work/crates/$name/"
        fi
    done
    grep "^$name:" "$top/crates.txt" >>"$work/crates.txt"
done
echo "lex_speed: unity_base unity_syntax unity_lexer" >>"$work/crates.txt"
mkdir -p "$work/crates/lex_speed/src" "$work/crates/lex_speed/specs"
: >"$work/crates/lex_speed/specs/Lib.antt"
cat >"$work/crates/lex_speed/src/main.rt" <<'END'
//! Times `lex` on the text in standard input.
#![tactic(auto)]

use std::io;
use std::io::Read;
use std::time::Instant;
use unity_lexer::lex;

fn main(rt: HostRuntime) -> io::Result<()> {
    let out = rt.stdout();
    let mut bytes = Vec::new(rt.alloc());
    rt.stdin().read_to_end(&mut bytes)?;
    for _ in 0..7 {
        let start = Instant::now(&rt)?;
        match lex(rt.alloc(), &bytes) {
            Ok(tokens) => {
                let time = start.elapsed(&rt)?.as_micros();
                let count = tokens.len();
                let size = bytes.len();
                println!(out; "lex {time} microseconds {count} tokens {size} bytes")?;
            }
            Err(_) => println!(out; "refused")?,
        }
    }
    Ok(())
}
END

text=$work/text
awk -v size="$size" 'BEGIN {
    while (made < size) {
        i++
        line = sprintf("  take%d: waiting[%d] := false, holder := %d if waiting[%d] and not (holder /= 0) # turn %d\n", i, i % 97, i % 5, i % 97, i)
        line = line sprintf("  [] <[] node : 0 .. %d :: pass%d[node] := (sum k : 0 .. node :: count[k]) + 3 * total >= 17 |>\n", i % 31 + 1, i)
        line = line sprintf("  live%d: waiting[%d] leadsto holder = %d by psp(induct(m : 0 .. 9, count[m], true, done, term), ready.safe);\n", i, i % 97, i % 5)
        printf "%s", line
        made += length(line)
    }
}' | head -c "$size" >"$text"

cd "$work/crates/lex_speed"
rt run <"$text" >"$work/times" 2>"$work/log" || { cat "$work/log" "$work/times"; exit 1; }
awk '$1 == "lex" && (best == "" || $2 < best) { best = $2; tokens = $4; size = $6 }
    END { if (best == "") exit 1; printf "lex   %.0f MB/s (%d bytes, %d tokens)\n", size / best, size, tokens }' "$work/times"

best=
for _ in 1 2 3 4 5 6 7; do
    start=$(date +%s%N)
    LC_ALL=C wc -w <"$text" >/dev/null
    time=$((($(date +%s%N) - start) / 1000))
    if [ -z "$best" ] || [ "$time" -lt "$best" ]; then best=$time; fi
done
awk -v size="$size" -v time="$best" 'BEGIN { printf "wc -w %.0f MB/s\n", size / time }'
