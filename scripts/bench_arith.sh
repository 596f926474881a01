#!/usr/bin/env bash
# Counts the instructions of one evaluation of a short expression, and of one that is 16 times longer than another, and
# prints the ratio of their costs per byte. It works on a copy of the crates in a folder of its own. Needs valgrind.
set -eu
. "$(dirname "$0")/bench_common.sh"
if [ ! -x crates/bench/out/bench ]; then
    copy_crates sh_arith
    build_bench sh_arith sh_vars <<'RT'
//! Evaluates a text as often as the arguments say: a text, how often it stands before `n`, and a count.
#![tactic(auto)]

use sh_arith::evaluate;
use sh_vars::Vars;
use std::env;
use std::io;

fn main(rt: HostRuntime) -> io::Result<()> {
    let mut words = Vec::new(rt.alloc());
    for word in env::args(&rt)?.skip(1) {
        words.push(word)?;
    }
    let [unit, size, times] = words.as_slice() else {
        return Ok(());
    };
    let size = size.as_str().parse::<u32>().unwrap_or(0);
    let times = times.as_str().parse::<u32>().unwrap_or(0);
    let mut text = Vec::new(rt.alloc());
    for _ in 0..size {
        text.extend_from_slice(unit.as_str().as_bytes())?;
    }
    text.push(b'n')?;
    let mut vars = Vars::new(rt.alloc())?;
    if vars.set(b"n", b"7").is_err() {
        return Ok(());
    }
    for _ in 0..times {
        match evaluate(rt.alloc(), &text, &mut vars) {
            Ok(value) => println!(rt; "{value}")?,
            Err(fault) => println!(rt; "{fault}")?,
        }
    }
    Ok(())
}
RT
fi
count() { # instructions of one evaluation: the difference of 21 and one, over 20
    local many one
    many=$(instructions "$1" "$2" 21)
    one=$(instructions "$1" "$2" 1)
    echo $(((many - one) / 20))
}
unit='1+(n*2-3)%5+'
echo "n+n: $(count 'n+' 1) instructions; (n+=1)+n: $(count '(n+=1)+' 1)"
small=$(count "$unit" 64)
large=$(count "$unit" 1024)
python3 - "$small" "$large" <<'PY'
import sys
small, large = int(sys.argv[1]), int(sys.argv[2])
print("%d bytes: %d instructions; %d bytes: %d; cost a byte %.1f and %.1f, ratio %.3f" % (
    64 * 12 + 1, small, 1024 * 12 + 1, large, small / (64 * 12 + 1), large / (1024 * 12 + 1),
    (large / (1024 * 12 + 1)) / (small / (64 * 12 + 1))))
PY
