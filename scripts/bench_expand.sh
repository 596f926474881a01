#!/usr/bin/env bash
# Counts the instructions of splitting a value of 64 KiB and of 1 MiB, and prints their ratio per byte; and those of
# expanding `*` in a directory of 10 files beside 100 and beside 10,000 files elsewhere. It works on copies of the crates in
# a folder of its own. Needs valgrind.
set -eu
. "$(dirname "$0")/bench_common.sh"
copy_crates sh_expand_fields
build_bench sh_expand_fields sh_files <<'RT'
//! Splits a value of so many bytes, or expands `*` beside so many files elsewhere, as often as the arguments say.
#![tactic(auto)]

mod arguments;

use sh_expand_fields::{Item, Separators, expand_pathnames, split};
use sh_files::Files;
use std::alloc::{AllocError, Global};
use std::io;

/// Adds a number of six digits.
fn add_number(image: &mut Vec<u8>, number: u32) -> Result<(), AllocError> {
    for place in [100000, 10000, 1000, 100, 10, 1] {
        image.push(b'0' + (number / place % 10) as u8)?;
    }
    Ok(())
}

/// An image with a directory of ten files, and so many in other directories, a hundred in each.
fn image_of(alloc: Global, count: u32) -> Result<Vec<u8>, AllocError> {
    let mut image = Vec::from_slice(alloc, b"psh image 1\ndir /here\n")?;
    for i in 0..10 {
        image.extend_from_slice(b"file /here/file")?;
        add_number(&mut image, i)?;
        image.extend_from_slice(b" rw- 0\n\n")?;
    }
    for i in 0..count {
        if i % 100 == 0 {
            image.extend_from_slice(b"dir /there")?;
            add_number(&mut image, i / 100)?;
            image.extend_from_slice(b"\n")?;
        }
        image.extend_from_slice(b"file /there")?;
        add_number(&mut image, i / 100)?;
        image.extend_from_slice(b"/file")?;
        add_number(&mut image, i)?;
        image.extend_from_slice(b" rw- 0\n\n")?;
    }
    image.extend_from_slice(b"end\n")?;
    Ok(image)
}

/// A value of so many bytes, a field in eight.
fn value_of(alloc: Global, count: u32) -> Result<Vec<Item>, AllocError> {
    let mut value = Vec::new(alloc);
    for i in 0..count {
        value.push(Item::Expanded(if i % 8 == 7 { b' ' } else { b'a' }))?;
    }
    Ok(value)
}

/// Splits a value, and says how many fields there are.
fn split_often(alloc: Global, count: u32, times: u32) -> Result<usize, AllocError> {
    let value = value_of(alloc, count)?;
    let mut fields = 0;
    for _ in 0..times {
        fields = split(alloc, Separators::Unset, &value)?.len();
    }
    Ok(fields)
}

/// Expands `*`, and says how many paths there are.
fn expand_often(alloc: Global, count: u32, times: u32) -> Result<usize, AllocError> {
    let image = image_of(alloc, count)?;
    let Ok(files) = Files::from_image(alloc, &image) else {
        return Ok(0);
    };
    let star = [Item::Literal(b'*')];
    let mut paths = 0;
    for _ in 0..times {
        paths = expand_pathnames(alloc, &files, b"/here", &star)?.len();
    }
    Ok(paths)
}

fn main(rt: HostRuntime) -> io::Result<()> {
    let numbers = arguments::numbers(rt)?;
    let splits = numbers.first().copied().unwrap_or(0) == 0;
    let count = numbers.get(1).copied().unwrap_or(0);
    let times = numbers.last().copied().unwrap_or(0);
    let found = if splits {
        split_often(rt.alloc(), count, times)?
    } else {
        expand_often(rt.alloc(), count, times)?
    };
    println!(rt; "{found}")?;
    Ok(())
}
RT
small=$((($(instructions 0 65536 3) - $(instructions 0 65536 1)) / 2))
large=$(($(instructions 0 1048576 2) - $(instructions 0 1048576 1)))
python3 -c "print('splitting: 64 KiB %.1f instructions a byte; 1 MiB %.1f; ratio %.2f' % ($small / 65536, $large / 1048576, $large / $small / 16))"
few=$((($(instructions 1 100 11) - $(instructions 1 100 1)) / 10))
many=$((($(instructions 1 10000 11) - $(instructions 1 10000 1)) / 10))
python3 -c "print('expanding *: beside 100 files %d instructions; beside 10,000 %d; ratio %.2f' % ($few, $many, $many / $few))"
