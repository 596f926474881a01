#!/usr/bin/env bash
# Counts the instructions of a write of 512 bytes and a read of 512 through a pipe of 4,096 that holds 256 and 3,584 bytes
# beside them, and prints their ratio. It works on a copy of sh_pipe in a folder of its own. Needs valgrind.
set -eu
. "$(dirname "$0")/bench_common.sh"
copy_crates sh_pipe
build_bench sh_pipe <<'RT'
//! Fills a pipe with as many bytes as the first argument says. Then writes and reads 512 as often as the last one says.
#![tactic(auto)]

mod arguments;

use sh_pipe::Pipe;
use std::io;

fn main(rt: HostRuntime) -> io::Result<()> {
    let numbers = arguments::numbers(rt)?;
    let held = numbers.first().copied().unwrap_or(0);
    let times = numbers.last().copied().unwrap_or(0);
    let mut pipe = Pipe::new(rt.alloc(), 4096)?;
    let filling = vec![in rt.alloc(); b'a'; held as usize]?;
    if pipe.write(&filling, true).is_err() {
        println!(rt; "not filled")?;
    }
    let bytes = [b'b'; 512];
    let mut buffer = [0; 512];
    for _ in 0..times {
        if pipe.write(&bytes, true) != Ok(512) || pipe.read_into(&mut buffer, true) != Ok(512) {
            println!(rt; "not moved")?;
        }
    }
    println!(rt; "{}", buffer[0])?;
    Ok(())
}
RT
count() { # instructions of one write and one read beside so many bytes: the difference of 101 of them and one, over 100
    local many one
    many=$(instructions "$1" 101)
    one=$(instructions "$1" 1)
    echo $(((many - one) / 100))
}
python3 - "$(count 256)" "$(count 3584)" <<'PY'
import sys
few, many = (int(it) / 512 for it in sys.argv[1:])
print(f"beside 256 bytes: {few:.2f} instructions for a byte written and read; beside 3584: {many:.2f}; ratio {many / few:.2f}")
PY
