#!/usr/bin/env bash
# Counts the instructions of reading an image of 100 and of 10,000 files, in the order of their paths and in a mixed
# order, and prints their ratio per byte of the image. It works on copies of the crates in a folder of its own. Needs
# valgrind.
set -eu
. "$(dirname "$0")/bench_common.sh"
copy_crates sh_files
build_bench sh_files <<'RT'
//! Reads an image of so many files, in the order of their paths or in a mixed order, as often as the arguments say.
#![tactic(auto)]

mod arguments;

use sh_files::Files;
use std::alloc::{AllocError, Global};
use std::io;

/// Adds a number of six digits.
fn add_number(image: &mut Vec<u8>, number: u32) -> Result<(), AllocError> {
    for place in [100000, 10000, 1000, 100, 10, 1] {
        image.push(b'0' + (number / place % 10) as u8)?;
    }
    Ok(())
}

/// Adds a directory's line.
fn add_directory(image: &mut Vec<u8>, number: u32) -> Result<(), AllocError> {
    image.extend_from_slice(b"dir /directory")?;
    add_number(image, number)?;
    image.extend_from_slice(b"\n")
}

/// Adds a file of 32 bytes.
fn add_file(image: &mut Vec<u8>, number: u32) -> Result<(), AllocError> {
    image.extend_from_slice(b"file /directory")?;
    add_number(image, number / 10)?;
    image.extend_from_slice(b"/file")?;
    add_number(image, number)?;
    image.extend_from_slice(b" rw- 32\n01234567890123456789012345678901\n")
}

/// An image in the order of its paths: directories, ten files in each.
fn image_in_order(alloc: Global, count: u32) -> Result<Vec<u8>, AllocError> {
    let mut image = Vec::from_slice(alloc, b"psh image 1\n")?;
    for i in 0..count {
        if i % 10 == 0 {
            add_directory(&mut image, i / 10)?;
        }
        add_file(&mut image, i)?;
    }
    image.extend_from_slice(b"end\n")?;
    Ok(image)
}

/// The same in a mixed order, the directories first. The count is no multiple of 7919.
fn image_mixed(alloc: Global, count: u32) -> Result<Vec<u8>, AllocError> {
    let mut image = Vec::from_slice(alloc, b"psh image 1\n")?;
    for i in 0..count / 10 {
        add_directory(&mut image, i)?;
    }
    for i in 0..count {
        add_file(&mut image, (u64::from(i) * 7919 % u64::from(count.max(1))) as u32)?;
    }
    image.extend_from_slice(b"end\n")?;
    Ok(image)
}

fn main(rt: HostRuntime) -> io::Result<()> {
    let numbers = arguments::numbers(rt)?;
    let count = numbers.first().copied().unwrap_or(0);
    let mixed = numbers.get(1).copied().unwrap_or(0) != 0;
    let times = numbers.last().copied().unwrap_or(0);
    let image = if mixed {
        image_mixed(rt.alloc(), count)?
    } else {
        image_in_order(rt.alloc(), count)?
    };
    for _ in 0..times {
        if Files::from_image(rt.alloc(), &image).is_err() {
            println!(rt; "refused")?;
        }
    }
    println!(rt; "{} bytes", image.len())?;
    Ok(())
}
RT
for mixed in 0 1; do
    small=$((($(instructions 100 $mixed 11) - $(instructions 100 $mixed 1)) / 10))
    large=$(($(instructions 10000 $mixed 2) - $(instructions 10000 $mixed 1)))
    small_bytes=$(crates/bench/out/bench 100 $mixed 0 | sed 's/ .*//')
    large_bytes=$(crates/bench/out/bench 10000 $mixed 0 | sed 's/ .*//')
    order=$([ $mixed = 0 ] && echo 'in order' || echo 'mixed')
    python3 -c "print('$order: 100 files %.1f instructions a byte; 10000 files %.1f; ratio %.2f' % ($small / $small_bytes, $large / $large_bytes, $large / $large_bytes * $small_bytes / $small))"
done
