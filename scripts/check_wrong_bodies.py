#!/usr/bin/env python3
"""Checks without a prover that each wrong body can be applied, and says which public functions have none in their own text.

usage: check_wrong_bodies.py [CRATE ..]

Each edit of crates/*/must-fail and wrong-bodies/* is applied as rt does it: a text `old` has to stand once in its file, as the pairs
before it left the file. Where crates are named, their public functions are listed in whose text, from its signature to its last
brace, no edit stands. Such a function may have one in a private function that it calls. Ends with 1 where an edit can't be applied.
"""
import glob
import os
import re
import sys

TOP = os.path.dirname(os.path.dirname(os.path.abspath(__file__)))
FUNCTION = re.compile(r"( *)(pub )?(?:pub\(\w+\) )?(?:const )?fn (\w+)")
IMPL = re.compile(r"impl\b(.*?) ?\{?$")


def read(path):
    with open(path, encoding="utf-8") as file:
        return file.read()


def functions(text):
    """The functions of a source: the first and the last line, whether it is public, and its name behind that of its type. The sources
    are in the layout of rt fmt, so a function ends with the first brace at its own indent."""
    lines, owner, found = text.split("\n"), "", []
    for first, line in enumerate(lines):
        if IMPL.match(line):
            owner = IMPL.match(line)[1].strip() + "::"
        elif line == "}":
            owner = ""
        begun = FUNCTION.match(line)
        if begun:
            ends = (at for at in range(first, len(lines)) if lines[at] == begun[1] + "}" or lines[at].rstrip().endswith(";") and at == first)
            found.append((first, next(ends, len(lines)), begun[2] is not None, (owner if begun[1] else "") + begun[3]))
    return found


def pairs_of(edit):
    """The pairs of an edit: each a file, the old text and the new one. A file goes on for the pairs behind it."""
    path, old, pairs = None, None, []
    for line in read(edit).split("\n"):
        if line.startswith("file: "):
            path = line.removeprefix("file: ").strip()
        elif line.startswith("old: "):
            old = line.removeprefix("old: ")
        elif line.startswith("new:"):
            pairs.append((path, old, line.removeprefix("new:").removeprefix(" ")))
            old = None
    return pairs


def apply(edit, folder):
    """Applies an edit. Gives why it can't be applied, if so, the functions in which it stands, each by its file and its name, and the
    files that it changes with their new texts."""
    texts, was, stands = {}, {}, set()
    for path, old, new in pairs_of(edit):
        if not path or not old or not os.path.isfile(f"{folder}/{path}"):
            return f"a pair has no text `old` or no file: {path}", stands, texts
        text = texts.setdefault(path, was.setdefault(path, read(f"{folder}/{path}")))
        if text.count(old) != 1:
            return f"a text `old` stands {text.count(old)} times in {path}: {old.strip()}", stands, texts
        at = text[: text.index(old)].count("\n")
        stands |= {(path, it[3]) for it in functions(text) if it[0] <= at <= it[1]} or {(path, None)}
        texts[path] = text.replace(old, new)
    return ("it changes nothing" if texts == was else None), stands, texts


def main(crates):
    bad, every, stands = 0, 0, {}
    for edit in sorted(glob.glob(f"{TOP}/wrong-bodies/*/*") + glob.glob(f"{TOP}/crates/*/must-fail/*")):
        crate = os.path.relpath(edit, TOP).split("/")[1]
        why, where, _ = apply(edit, f"{TOP}/crates/{crate}")
        every, bad = every + 1, bad + (why is not None)
        stands.setdefault(crate, set()).update(where)
        if why:
            print(f"{os.path.relpath(edit, TOP)}: {why}")
    print(f"{every} wrong bodies, {bad} of which can't be applied")
    for crate in crates:
        folder, public, without = f"{TOP}/crates/{crate}", 0, []
        for source in sorted(glob.glob(f"{folder}/src/**/*.rt", recursive=True)):
            file = os.path.relpath(source, folder)
            names = [it[3] for it in functions(read(source)) if it[2]]
            public += len(names)
            without += [f"{file} {name}" for name in names if (file, name) not in stands.get(crate, ())]
        print(f"{crate}: {len(without)} of {public} public functions have none in their own text", *without, sep="\n    ")
    return 1 if bad else 0


if __name__ == "__main__":
    sys.exit(main(sys.argv[1:]))
