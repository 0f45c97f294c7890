#!/bin/sh
# How many nodes a second `copy_form`, `with_params` and `holds` take of a formula of 60,000 nodes, and
# how their times grow from 15,000 nodes to 60,000: by 4 where they are linear.
#
# It copies the crates into a temporary repository with what their checks kept, adds a program that times
# the calls, proves and builds it there, and takes the best of several runs. Run it with nothing else at work.
set -eu
top=$(cd "$(dirname "$0")/.." && pwd)
work=$(mktemp -d)
trap 'rm -rf "$work"' EXIT

mkdir -p "$work/crates"
for name in unity_base case_tables meaning_states core_terms examples_limits; do
    mkdir "$work/crates/$name"
    for part in src specs proofs out; do
        if [ -d "$top/crates/$name/$part" ]; then
            cp -r "$top/crates/$name/$part" "$work/crates/$name/"
        fi
    done
    grep "^$name:" "$top/crates.txt" >>"$work/crates.txt"
done
echo "core_speed: unity_base case_tables meaning_states core_terms examples_limits" >>"$work/crates.txt"
mkdir -p "$work/crates/core_speed/src" "$work/crates/core_speed/specs"
: >"$work/crates/core_speed/specs/Lib.antt"
cat >"$work/crates/core_speed/src/main.rt" <<'END'
//! Times calls that go down a core tree, at two sizes.
#![tactic(auto)]

ghost use Rattle.std.specs.Prelude.{IfOk};
ghost use Rattle.examples_limits.specs.Light.{IsLightForm};

use examples_limits::{TermAround, deep_term};
use core_terms::{Arg, CForm, copy_form, holds, with_params};
use std::alloc::{AllocError, Global};
use std::io;
use std::time::Instant;

// A formula of two nodes more than twice the levels.
fn sums(alloc: Global, levels: u32) -> Result<CForm, AllocError>
    ensures { IfOk result IsLightForm }
{
    Ok(CForm::Zero(deep_term(alloc, TermAround::Add, levels)?))
}

fn main(rt: HostRuntime) -> io::Result<()> {
    let out = rt.stdout();
    let none: &[Arg] = [].as_slice();
    for levels in [7499, 29999] {
        let nodes = 2 * levels + 2;
        if let Ok(f) = sums(rt.alloc(), levels) {
            for _ in 0..25 {
                let start = Instant::now(&rt)?;
                let copied = copy_form(rt.alloc(), &f).is_ok();
                let time = start.elapsed(&rt)?.as_nanos();
                println!(out; "copy_form {nodes} {time} {copied}")?;

                let start = Instant::now(&rt)?;
                let put = with_params(rt.alloc(), &f, none).is_ok();
                let time = start.elapsed(&rt)?.as_nanos();
                println!(out; "with_params {nodes} {time} {put}")?;

                let start = Instant::now(&rt)?;
                let truth = holds(&f, [0].as_slice(), [].as_slice());
                let time = start.elapsed(&rt)?.as_nanos();
                println!(out; "holds {nodes} {time} {truth}")?;
            }
        }
    }
    Ok(())
}
END

cd "$work/crates/core_speed"
rt run >"$work/times" 2>"$work/log" || { cat "$work/log" "$work/times"; exit 1; }
awk '$4 != "" { key = $1 " " $2; if (!(key in best) || $3 < best[key]) best[key] = $3 }
    END {
        split("copy_form with_params holds", calls, " ")
        for (i = 1; i <= 3; i++) {
            small = best[calls[i] " 15000"]
            large = best[calls[i] " 60000"]
            if (small == "" || large == "") exit 1
            printf "%-11s %5.1f million nodes a second, time grows by %.1f\n", calls[i], 60000 / large * 1000, large / small
        }
    }' "$work/times"
