#!/usr/bin/env bash
# Refuses each growth of memory in turn in the calls of sh_files: an image of 200 files is read, and files are made,
# written, truncated and listed. Where a call is refused for want of memory, the files are to be written as the same
# image as before it, and the call is to pass when it is made again. It works on copies of the crates in a folder of its
# own. Needs a C compiler.
set -eu
. "$(dirname "$0")/bench_common.sh"
copy_crates sh_files
build_bench sh_files <<'RT'
//! Calls on files; what was refused for want of memory is to have changed nothing, and passes when it is tried again.
#![tactic(auto)]

mod arguments;

use sh_files::{FaultKind, FileFault, Files, Opening};
use std::alloc::{AllocError, Global};
use std::io;

/// Adds a number of three digits.
fn add_number(text: &mut Vec<u8>, number: u32) -> Result<(), AllocError> {
    for place in [100, 10, 1] {
        text.push(b'0' + (number / place % 10) as u8)?;
    }
    Ok(())
}

fn image(alloc: Global) -> Result<Vec<u8>, AllocError> {
    let mut image = Vec::from_slice(alloc, b"psh image 1\ndir /d\n")?;
    for i in 0..200 {
        image.extend_from_slice(b"file /d/f")?;
        add_number(&mut image, i)?;
        image.extend_from_slice(b" rw- 3\nabc\n")?;
    }
    image.extend_from_slice(b"end\n")?;
    Ok(image)
}

/// The files as an image; a refusal is tried again once.
fn written(files: &Files) -> Option<Vec<u8>> {
    match files.write_image() {
        Ok(bytes) => Some(bytes),
        Err(_) => files.write_image().ok(),
    }
}

fn path(alloc: Global, number: u32) -> Result<Vec<u8>, AllocError> {
    let mut path = Vec::from_slice(alloc, b"/d/g")?;
    add_number(&mut path, number)?;
    Ok(path)
}

/// One call, by its number: an even one makes a file, an odd one is on the file before. Whether it was refused for want
/// of memory, or `None` where it failed otherwise.
fn call(alloc: Global, files: &mut Files, number: u32) -> Option<bool> {
    let how = Opening { read: true, write: true, create: number % 2 == 0, exclusive: false, truncate: false };
    let Ok(name) = path(alloc, number / 2) else {
        return Some(true);
    };
    let node = match files.open(b"/", name.as_slice(), how) {
        Ok(node) => node,
        Err(FileFault::NoMemory(_)) => return Some(true),
        Err(_) => return None,
    };
    let done = match number % 8 {
        1 => files.write(node, 5, b"0123456789"),
        3 => files.truncate(node, 100),
        5 => files.list(b"/", b"/d").map(|_| ()),
        7 => files.is_executable(b"/", name.as_slice()).map(|_| ()).map_err(|lack| FileFault::from(lack)),
        _ => Ok(()),
    };
    match done {
        Ok(()) => Some(false),
        Err(FileFault::NoMemory(_)) => Some(true),
        Err(_) => None,
    }
}

fn main(rt: HostRuntime) -> io::Result<()> {
    let alloc = rt.alloc();
    let Ok(bytes) = image(alloc) else {
        println!(rt; "refused")?;
        return Ok(());
    };
    let mut refused = 0u32;
    let mut files = match Files::from_image(alloc, bytes.as_slice()) {
        Ok(files) => files,
        Err(fault) => {
            println!(rt; "{}", if matches!(fault.kind, FaultKind::NoMemory(_)) { "refused" } else { "wrong" })?;
            return Ok(());
        },
    };
    for number in 0..60u32 {
        let Some(before) = written(&files) else {
            println!(rt; "wrong")?;
            return Ok(());
        };
        match call(alloc, &mut files, number) {
            Some(false) => {},
            Some(true) => {
                refused = refused.saturating_add(1);
                let Some(after) = written(&files) else {
                    println!(rt; "wrong")?;
                    return Ok(());
                };
                let same = after.as_slice() == before.as_slice();
                let passed = call(alloc, &mut files, number) == Some(false);
                if !same {
                    println!(rt; "changed at {number}")?;
                }
                if !passed {
                    println!(rt; "stays refused at {number}")?;
                }
            },
            None => println!(rt; "failed at {number}")?,
        }
    }
    println!(rt; "refused {refused}")?;
    Ok(())
}
RT
python3 - "$top" "$work" <<'PY'
import os, re, subprocess, sys
top, work = sys.argv[1:]
sys.path.insert(0, top + '/scripts')
from refuse_growth import SHIM
shim = work + '/shim.so'
subprocess.run(['cc', '-shared', '-fPIC', '-x', 'c', '-', '-o', shim], input=SHIM.encode(), check=True)
refusals, bad = 0, 0
for n in range(1, 801):
    done = subprocess.run([work + '/crates/bench/out/bench'], capture_output=True, text=True, env={'LD_PRELOAD': shim, 'REFUSE': str(n)})
    lines = done.stdout.split('\n')
    if done.returncode != 0 or lines[0] not in ('refused', 'refused 0', 'refused 1'):
        bad += 1
        print('growth %d: status %d, %r' % (n, done.returncode, done.stdout))
    elif lines[0] != 'refused 0':
        refusals += 1
print('%d calls refused, %d of them not as stated' % (refusals, bad))
sys.exit(bad != 0)
PY
