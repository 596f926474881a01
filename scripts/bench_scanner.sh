#!/usr/bin/env bash
# Scans a script of 1 KiB, 64 KiB and 1 MiB token by token; prints the instructions and the bytes per second of each, and
# the ratios of their costs per byte. It works on copies of the crates in a folder of its own. Needs valgrind.
set -eu
. "$(dirname "$0")/bench_common.sh"
copy_crates sh_token
build_bench sh_token sh_token_pieces sh_base <<'RT'
//! Scans a script of so many bytes as often as the arguments say, and prints how many tokens it has.
#![tactic(auto)]

mod arguments;

use sh_token::token::next_token;
use std::alloc::{AllocError, Global};
use std::io;

/// A part of a script of some 512 bytes, which is repeated.
const PART: &[u8] = b"# unpack what isn't there yet\nfor name in \"$@\"; do\n    case $name in\n    *.tar) target=${name%.tar} ;;\n    *) echo \"$0: $name: not an archive\" >&2; status=1; continue ;;\n    esac\n    if [ -d \"$target\" ] && [ \"$(ls -A \"$target\" | wc -l)\" -gt 0 ]; then\n        count=$((count + 1)) && echo 'there: '\"$target\"\n    else\n        mkdir -p \"${target:-.}\" && (cd \"$target\" && tar -xf ../\"$name\") || exit 1\n    fi\ndone 2>>log\n";

fn script(alloc: Global, size: usize) -> Result<Vec<u8>, AllocError> {
    let mut text = Vec::new(alloc);
    for _ in 0..size / 512 {
        text.extend_from_slice(PART)?;
    }
    Ok(text)
}

fn main(rt: HostRuntime) -> io::Result<()> {
    let numbers = arguments::numbers(rt)?;
    let size = numbers.first().copied().unwrap_or(0);
    let times = numbers.last().copied().unwrap_or(0);
    let text = script(rt.alloc(), size as usize)?;
    let mut tokens = 0u64;
    for _ in 0..times {
        let mut at = 0usize;
        for _ in 0..text.len() {
            match next_token(rt.alloc(), &text, at, true) {
                Ok(token) if at < text.len() => {
                    at = token.span.end;
                    tokens = tokens.saturating_add(1);
                },
                _ => break,
            }
        }
    }
    println!(rt; "{} bytes, {tokens} tokens", text.len())?;
    Ok(())
}
RT
python3 - "$work" <<'PY'
import re, subprocess, sys, time
bench = sys.argv[1] + '/crates/bench/out/bench'

def instructions(size, times):
    command = ['valgrind', '--tool=callgrind', '--callgrind-out-file=/dev/null', bench, str(size), str(times)]
    return int(re.search(r'Collected : (\d+)', subprocess.run(command, capture_output=True, text=True).stderr).group(1))

def seconds(size, times):
    start = time.perf_counter()
    subprocess.run([bench, str(size), str(times)], capture_output=True)
    return time.perf_counter() - start

costs = []
for size, times in [(1 << 10, 400), (1 << 16, 20), (1 << 20, 4)]:
    length = int(subprocess.run([bench, str(size), '0'], capture_output=True, text=True).stdout.split()[0])
    few = max(times // 20, 1)
    cost = (instructions(size, few) - instructions(size, 0)) / few / length
    speed = length * times / (seconds(size, times) - seconds(size, 0))
    costs.append(cost)
    print('%d bytes: %.1f instructions a byte, %.0f bytes a second' % (length, cost, speed))
print('ratios of the costs: %.2f and %.2f' % (costs[1] / costs[0], costs[2] / costs[1]))
PY
