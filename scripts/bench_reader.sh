#!/usr/bin/env bash
# Reads a script of 64 KiB and one of 1 MiB command after command, and texts of these sizes that are one command each;
# prints the instructions per byte of each, and their ratio. It works on copies of the crates, with what checks have
# kept of them, in a folder of its own. Needs valgrind.
set -eu
. "$(dirname "$0")/bench_common.sh"
copy_crates sh_parse
for name in $(crates_below sh_parse); do
    [ -d "crates/$name/out" ] || [ ! -d "$top/crates/$name/out" ] || cp -r "$top/crates/$name/out" "crates/$name/"
done
build_bench sh_parse <<'RT'
//! Reads a text of so many bytes as often as the arguments say, command after command, and prints how many readings that takes.
#![tactic(auto)]

mod arguments;

use sh_parse::{Aliases, Reading, read_command};
use std::alloc::{AllocError, Global};
use std::io;

/// What a text is made of: what stands once in front, what is repeated, and what stands once behind.
#[derive(Clone, Copy)]
struct Pattern {
    front: &'static [u8],
    part: &'static [u8],
    back: &'static [u8],
}

/// A command of a script, with a comment before it: 417 bytes.
const COMMAND: &[u8] = b"# unpack what isn't there yet\nfor name in \"$@\"; do\n    case $name in\n    *.tar) target=${name%.tar} ;;\n    *) echo \"$0: $name: not an archive\" >&2; status=1; continue ;;\n    esac\n    if [ -d \"$target\" ] && [ \"$(ls -A \"$target\" | wc -l)\" -gt 0 ]; then\n        count=$((count + 1)) && echo 'there: '\"$target\"\n    else\n        mkdir -p \"${target:-.}\" && (cd \"$target\" && tar -xf ../\"$name\") || exit 1\n    fi\ndone 2>>log\n";

/// The text of a number.
fn pattern_of(number: u32) -> Pattern {
    let (front, part, back): (&[u8], &[u8], &[u8]) = match number {
        0 => (b"", COMMAND, b""),
        1 => (b"", b"echo a b\n", b""),
        2 => (b"", b"cat <<E\na line of $text\nE\n", b""),
        3 => (b"", b"a; ", b"b\n"),
        4 => (b"case a in\n", b"b|c) d;;\n", b"esac\n"),
        5 => (b"echo", b" a", b"\n"),
        6 => (b"echo a", b"$(b c)", b"\n"),
        7 => (b"echo \"a", b"${b:-c}$((d + 1))", b"\"\n"),
        _ => (b"cat <<E\n", b"a line of $text\n", b"E\n"),
    };
    Pattern { front, part, back }
}

fn text_of(alloc: Global, pattern: Pattern, size: usize) -> Result<Vec<u8>, AllocError> {
    let mut text = Vec::from_slice(alloc, pattern.front)?;
    for _ in 0..size / pattern.part.len().max(1) {
        text.extend_from_slice(pattern.part)?;
    }
    text.extend_from_slice(pattern.back)?;
    Ok(text)
}

/// How many bytes the first command of a text has, with what stands before it; none where it isn't complete.
fn size_of_next(alloc: Global, text: &[u8]) -> usize {
    match read_command(alloc, text, true, &Aliases::new(alloc)) {
        Ok(Reading::Complete { used, .. }) => used,
        Ok(Reading::Blank { used }) => used,
        _ => 0,
    }
}

fn main(rt: HostRuntime) -> io::Result<()> {
    let numbers = arguments::numbers(rt)?;
    let number = numbers.first().copied().unwrap_or(0);
    let size = numbers.get(1).copied().unwrap_or(0);
    let times = numbers.last().copied().unwrap_or(0);
    let text = text_of(rt.alloc(), pattern_of(number), size as usize)?;
    let mut readings = 0u64;
    for _ in 0..times {
        let mut rest = text.as_slice();
        for _ in 0..text.len() {
            let used = size_of_next(rt.alloc(), rest);
            if used == 0 {
                break;
            }
            readings = readings.saturating_add(1);
            rest = rest.get(used..).unwrap_or(b"");
        }
        if !rest.is_empty() {
            println!(rt; "{} bytes are left", rest.len())?;
        }
    }
    println!(rt; "{} bytes, {readings} readings", text.len())?;
    Ok(())
}
RT
python3 - "$work" <<'PY'
import re, subprocess, sys
bench = sys.argv[1] + '/crates/bench/out/bench'
TEXTS = [
    'a script of commands of 417 bytes',
    'a script of `echo a b`, one a line',
    'a script of commands with a here-document each',
    'one command: a list on a line, `a; a; ..`',
    'one command: a case of many items',
    'one command: many words',
    'one command: a word of many `$(b c)`',
    'one command: a quoted word of many `${b:-c}$((d + 1))`',
    'one command: a here-document of many lines',
]

def instructions(number, size, times):
    command = ['valgrind', '--tool=callgrind', '--callgrind-out-file=/dev/null', bench, str(number), str(size), str(times)]
    return int(re.search(r'Collected : (\d+)', subprocess.run(command, capture_output=True, text=True).stderr).group(1))

def cost(number, size):
    told = subprocess.run([bench, str(number), str(size), '1'], capture_output=True, text=True).stdout
    length, readings = re.fullmatch(r'(\d+) bytes, (\d+) readings\n', told).groups()
    return (instructions(number, size, 1) - instructions(number, size, 0)) / int(length), int(readings)

for number, name in enumerate(TEXTS):
    small, few = cost(number, 1 << 16)
    large, many = cost(number, 1 << 20)
    print('%s: %.0f instructions a byte at 64 KiB, %.0f at 1 MiB (%d and %d readings), ratio %.2f'
        % (name, small, large, few, many, large / small))
PY
