#!/usr/bin/env python3
"""Runs psh as rows of a file say, and tells which runs come to something else.

usage: run_psh_rows.py PROGRAM [ROWS]

ROWS is crates/psh/rows where it isn't given; the kinds of rows are told at its head. Each run is in a folder of its own, which
has the files `image` and `events`. What PROGRAM writes to standard error when it is asked for help, such as that it isn't
proved, is told once and left out of each run. Ends with the number of runs that came to what they should, and of those that
didn't, and with 1 where there is one of these.
"""
import dataclasses
import os
import re
import subprocess
import sys
import tempfile

TOP = os.path.dirname(os.path.dirname(os.path.abspath(__file__)))

# The fields of a row before the words of its command line.
FIELDS = {"run": 5, "full": 4}

# A run that takes longer than these seconds has failed.
LONGEST = 120


@dataclasses.dataclass
class Row:
    """A command line with its files, and what has to come of it."""

    line: int
    words: list
    image: bytes
    events: bytes
    status: int
    out: bytes
    err: bytes
    is_full: bool


def text_of(field):
    """The bytes of a field."""
    named = {b"n": b"\n", b"t": b"\t", b"\\": b"\\"}

    def byte_of(match):
        return bytes([int(match[2], 16)]) if match[2] else named[match[1]]

    return re.sub(rb"\\(x([0-9a-f]{2})|[nt\\])", byte_of, field)


def read_rows(path):
    """The rows of a file."""
    rows, images = [], {}
    with open(path, "rb") as file:
        lines = file.read().split(b"\n")
    for number, line in enumerate(lines, 1):
        if not line or line.startswith(b"#"):
            continue
        kind, *fields = [text_of(field) for field in line.split(b"\t")]
        kind = kind.decode()
        if kind == "image" and len(fields) == 2:
            images[fields[0]] = fields[1]
        elif kind in FIELDS and len(fields) >= FIELDS[kind]:
            status, *rest = fields
            out = b"" if kind == "full" else rest.pop(0)
            err, image, events, *words = rest
            rows.append(Row(number, words, images.get(image, image), events, int(status), out, err, kind == "full"))
        else:
            sys.exit(f"{path}: line {number} is no row")
    return rows


def run(program, row):
    """What a run comes to: its exit status, standard output and standard error."""
    with tempfile.TemporaryDirectory(prefix="psh-rows-") as folder:
        for name, content in (("image", row.image), ("events", row.events)):
            with open(f"{folder}/{name}", "wb") as file:
                file.write(content)
        out = open("/dev/full", "wb") if row.is_full else subprocess.PIPE
        try:
            done = subprocess.run(
                [program, *row.words], cwd=folder, stdin=subprocess.DEVNULL, stdout=out, stderr=subprocess.PIPE, timeout=LONGEST
            )
        except subprocess.TimeoutExpired:
            return None
        finally:
            if row.is_full:
                out.close()
        return done.returncode, done.stdout or b"", done.stderr


def main(program, path=f"{TOP}/crates/psh/rows"):
    program = os.path.abspath(program)
    if not os.access(program, os.X_OK):
        sys.exit(f"{program}: no program")
    rows = read_rows(path)
    said = subprocess.run([program, "--help"], stdout=subprocess.DEVNULL, stderr=subprocess.PIPE).stderr
    if said:
        print(f"left out of what is said: {said!r}")
    failed = 0
    for row in rows:
        found = run(program, row)
        if found and found[2].startswith(said):
            found = (*found[:2], found[2][len(said):])
        if found != (row.status, row.out, row.err):
            failed += 1
            wanted = (row.status, row.out, row.err)
            print(f"{path}: line {row.line}: {row.words} came to {found or 'no end'}, and not to {wanted}")
    print(f"psh: {len(rows) - failed} passed, {failed} failed")
    return 1 if failed else 0


if __name__ == "__main__":
    if len(sys.argv) not in (2, 3):
        sys.exit(__doc__)
    sys.exit(main(*sys.argv[1:]))
