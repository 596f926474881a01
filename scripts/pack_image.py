#!/usr/bin/env python3
"""Writes a folder as an image of files, which psh and psh-schedules run a script over.

usage: pack_image.py FOLDER [--stock] >IMAGE

What is in FOLDER stands in the image from `/` on: folders, and files with the rights of their owner. With --stock the folder /bin has
the programs of the stock as well, but for a name that FOLDER has there. Ends with 1 where FOLDER holds what no image can: a link, a
device, or a name with a newline.
"""
import os
import stat
import sys

# The programs of the stock.
STOCK = ["cat", "count", "echo", "false", "having", "head", "readstop", "spin", "true", "yes"]


def rights_of(mode):
    """What its owner may do with a file, as an image has it."""
    return "".join(letter if mode & bit else "-" for letter, bit in (("r", stat.S_IRUSR), ("w", stat.S_IWUSR), ("x", stat.S_IXUSR)))


def with_stock(programs, entries=()):
    """These entries and the programs of the stock with these names. An entry has a path, its rights (none for a folder), its bytes."""
    stock = {b"/bin": (None, b""), **{b"/bin/" + it.encode(): ("r-x", b"#!stock %s\n" % it.encode()) for it in programs}}
    return {**(stock if programs else {}), **dict(entries)}


def image_of(entries):
    """The image with these entries, in the order of the bytes of their paths."""
    lines = [b"psh image 1\n"]
    for path, (rights, content) in sorted(entries.items()):
        if rights is None:
            lines.append(b"dir %s\n" % path)
        else:
            lines.append(b"file %s %s %d\n%s\n" % (path, rights.encode(), len(content), content))
    return b"".join([*lines, b"end\n"])


def entries_of(folder):
    """What a folder holds, by its path in the image."""
    found, top = {}, os.fsencode(folder).rstrip(b"/")
    for place, folders, files in os.walk(top):
        for name in [*folders, *files]:
            real = place + b"/" + name
            path, mode = real[len(top) :], os.lstat(real).st_mode
            if b"\n" in name or not (stat.S_ISDIR(mode) or stat.S_ISREG(mode)):
                sys.exit(f"{os.fsdecode(real)}: no image can hold this")
            if stat.S_ISDIR(mode):
                found[path] = (None, b"")
                continue
            with open(real, "rb") as file:
                found[path] = (rights_of(mode), file.read())
    return found


def main(folder, *options):
    if not os.path.isdir(folder) or options not in ((), ("--stock",)):
        sys.exit(__doc__)
    sys.stdout.buffer.write(image_of(with_stock(STOCK if options else [], entries_of(folder))))


if __name__ == "__main__":
    if len(sys.argv) < 2:
        sys.exit(__doc__)
    main(*sys.argv[1:])
