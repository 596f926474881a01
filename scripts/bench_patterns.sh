#!/usr/bin/env bash
# Counts the instructions of one match of `*a*a*a*a*a*b` against 1,000 and 10,000 bytes `a`, and prints their ratio.
# It works on a copy of sh_pattern in a folder of its own. Needs valgrind.
set -eu
. "$(dirname "$0")/bench_common.sh"
copy_crates sh_pattern
build_bench sh_pattern <<'RT'
//! Matches a pattern as often as the arguments say: a size and a count.
#![tactic(auto)]

mod arguments;

use sh_pattern::{PatternByte, matches};
use std::io;

fn main(rt: HostRuntime) -> io::Result<()> {
    let numbers = arguments::numbers(rt)?;
    let size = numbers.first().copied().unwrap_or(0);
    let times = numbers.last().copied().unwrap_or(0);
    let mut pattern = Vec::new(rt.alloc());
    for byte in b"*a*a*a*a*a*b" {
        pattern.push(PatternByte {
            byte: *byte,
            literal: false,
        })?;
    }
    let text = vec![in rt.alloc(); b'a'; size as usize]?;
    for _ in 0..times {
        if matches(&pattern, &text) {
            println!(rt; "matched")?;
        }
    }
    Ok(())
}
RT
count() { # instructions of one match at a size: the difference of 21 matches and one, over 20
    local many one
    many=$(instructions "$1" 21)
    one=$(instructions "$1" 1)
    echo $(((many - one) / 20))
}
small=$(count 1000)
large=$(count 10000)
echo "1000 bytes: $small instructions; 10000 bytes: $large; ratio $(python3 -c "print(round($large / $small, 2))")"
