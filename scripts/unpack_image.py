#!/usr/bin/env python3
"""Writes the files of an image into a folder: the other way of pack_image.py.

usage: unpack_image.py IMAGE FOLDER
       psh --report .. | unpack_image.py - FOLDER

What stands in the image from `/` on is then in FOLDER, which is made if it isn't there. A file has the rights of the image for its owner,
and none for others. With `-` the image is read from standard input. There it may stand behind other lines, as in what `psh --report`
writes: it begins at the first line `psh image 1` from which on all is an image.

Nothing is written outside of FOLDER, and nothing over what is there: a file that exists, and a link on the way, are refused. The whole
image is read before the first file is written. Ends with 1 where the image is none, where a path leads out of FOLDER or is there already,
and where a file can't be written; what was written by then stays, and the message names the path.
"""
import os
import stat
import sys

HEADER = b"psh image 1\n"
RIGHTS = {b"r": stat.S_IRUSR, b"w": stat.S_IWUSR, b"x": stat.S_IXUSR, b"-": 0}


class Refused(Exception):
    """Why an image isn't unpacked."""


def components_of(path, line):
    """The names of a path of an image, from the root on."""
    names = path.split(b"/")[1:]
    if not path.startswith(b"/") or not names or any(it in (b"", b".", b"..") or b"\0" in it for it in names):
        raise Refused(f"line {line}: {os.fsdecode(path)!r} is no path of a file in an image")
    return names


def mode_of(rights, line):
    """The mode of a file with these rights, as `r-x`."""
    if len(rights) != 3 or any(rights[i : i + 1] not in (b"rwx"[i : i + 1], b"-") for i in range(3)):
        raise Refused(f"line {line}: {os.fsdecode(rights)!r} are no rights")
    return sum(RIGHTS[rights[i : i + 1]] for i in range(3))


def entries_of(image):
    """What an image holds: for each path its names, the mode of a file or None for a folder, and its bytes."""
    if not image.startswith(HEADER):
        raise Refused("line 1: no image begins here")
    entries, at, line, paths = [], len(HEADER), 2, set()
    while True:
        end = image.find(b"\n", at)
        if end < 0:
            raise Refused(f"line {line}: the image ends too early")
        text, at = image[at:end], end + 1
        words, content, mode = text.split(b" "), b"", None
        if text == b"end":
            break
        if words[0] == b"dir":
            path = text[4:]
        elif words[0] == b"file" and len(words) >= 4 and words[-1].isdigit():
            path, size = b" ".join(words[1:-2]), int(words[-1])
            mode, content = mode_of(words[-2], line), image[at : at + size]
            if image[at + size : at + size + 1] != b"\n":
                raise Refused(f"line {line}: the image ends too early")
            at += size + 1
        else:
            raise Refused(f"line {line}: neither `dir PATH` nor `file PATH FLAGS LENGTH` nor `end`")
        if path in paths:
            raise Refused(f"line {line}: {os.fsdecode(path)!r} is there twice")
        paths.add(path)
        entries.append((components_of(path, line), mode, content))
        line += 1 + content.count(b"\n") + (mode is not None)
    if image[at:]:
        raise Refused(f"line {line + 1}: something follows the end")
    return entries


def image_in(text):
    """The image that a text ends with."""
    at, last = text.find(HEADER), Refused("there is no image")
    while at >= 0:
        try:
            return entries_of(text[at:])
        except Refused as refused:
            last = refused
        at = text.find(HEADER, at + 1)
    raise last


def entered(parent, name):
    """A folder in an open one, which is made if it isn't there. A link isn't followed."""
    try:
        os.mkdir(name, 0o777, dir_fd=parent)
    except FileExistsError:
        pass
    return os.open(name, os.O_RDONLY | os.O_DIRECTORY | os.O_NOFOLLOW, dir_fd=parent)


def put(top, names, mode, content):
    """Writes one entry below an open folder."""
    opened = [os.dup(top)]
    try:
        for name in names if mode is None else names[:-1]:
            opened.append(entered(opened[-1], name))
        if mode is not None:
            file = os.open(names[-1], os.O_WRONLY | os.O_CREAT | os.O_EXCL | os.O_NOFOLLOW, 0o600, dir_fd=opened[-1])
            with os.fdopen(file, "wb") as it:
                it.write(content)
                os.fchmod(it.fileno(), mode)
    finally:
        for it in opened:
            os.close(it)


def unpack(entries, folder):
    """Writes all entries into a folder."""
    os.makedirs(folder, exist_ok=True)
    top = os.open(folder, os.O_RDONLY | os.O_DIRECTORY)
    try:
        for names, mode, content in entries:
            try:
                put(top, names, mode, content)
            except OSError as error:
                raise Refused(f"/{os.fsdecode(b'/'.join(names))}: {error.strerror}") from error
    finally:
        os.close(top)


def main(image, folder):
    try:
        if image == "-":
            entries = image_in(sys.stdin.buffer.read())
        else:
            with open(image, "rb") as it:
                entries = entries_of(it.read())
        unpack(entries, folder)
    except Refused as refused:
        sys.exit(f"unpack_image.py: {image}: {refused}")
    except OSError as error:
        sys.exit(f"unpack_image.py: {error.filename}: {error.strerror}")


if __name__ == "__main__":
    if len(sys.argv) != 3:
        sys.exit(__doc__)
    main(*sys.argv[1:])
