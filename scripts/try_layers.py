#!/usr/bin/env python3
"""Runs the examples of layers that can be used alone, and looks whether each prints what it has to.

usage: try_layers.py [LAYER ..]

The section `A whole program` of crates/LAYER/README.md has a program over that crate and those that it names in `use` lines, and what
it prints. It is run by rt try, which compiles it with checks and proves nothing, in a folder of its own with copies of those crates and
of all that they stand on. Ends with 1 where one prints something else or stops.
"""
import concurrent.futures
import os
import re
import shutil
import subprocess
import sys
import tempfile

import proving
import sources

# A program and what it prints, as they stand in the page of a crate.
PROGRAM = re.compile(r"^## A whole program\n.*?^```rust\n(.*?)^```\n.*?^```text\n(.*?)^```$", re.M | re.S)


def program_of(layer):
    """The program in the page of a crate, and what it prints; none where there is none."""
    with open(f"{sources.TOP}/crates/{layer}/README.md", encoding="utf-8") as it:
        found = PROGRAM.search(it.read())
    return found.groups() if found else None


def layers():
    """The crates whose page has a program."""
    return sorted(name for name in os.listdir(f"{sources.TOP}/crates") if program_of(name))


def put_program(text, folder):
    """Puts a program into a folder as the crate `example`, with the crates that it names and all below them."""
    named = sorted(set(re.findall(r"^use (\w+)::", text, re.M)) - {"std"})
    crates = sorted({it for name in named for it in sources.crates_below(name)})
    for crate in crates:
        for part in sources.PARTS:
            if os.path.isdir(f"{sources.TOP}/crates/{crate}/{part}"):
                shutil.copytree(f"{sources.TOP}/crates/{crate}/{part}", f"{folder}/crates/{crate}/{part}")
    sources.put_names(crates, folder)
    with open(f"{folder}/crates.txt", "a", encoding="utf-8") as it:
        it.write(f"example: {' '.join(named)}\n")
    for part, name, content in (("src", "main.rt", text), ("specs", "Lib.antt", "")):
        os.makedirs(f"{folder}/crates/example/{part}")
        with open(f"{folder}/crates/example/{part}/{name}", "w", encoding="utf-8") as it:
            it.write(content)
    os.mkdir(f"{folder}/.git")


def try_layer(layer):
    """What is wrong with an example, as lines; none where it prints what it has to."""
    text, wanted = program_of(layer)
    with tempfile.TemporaryDirectory(prefix="layer-") as folder:
        put_program(text, folder)
        ran = subprocess.run(["rt", "try"], cwd=f"{folder}/crates/example", capture_output=True, text=True, errors="replace")
    if ran.returncode == 0 and ran.stdout == wanted:
        return []
    return [f"{layer}: status {ran.returncode}", "printed:", *ran.stdout.splitlines(), "wanted:", *wanted.splitlines(), *ran.stderr.splitlines()[-8:]]


def main(words):
    names = words or layers()
    wrong = 0
    with concurrent.futures.ThreadPoolExecutor(proving.processors()) as pool:
        for lines in pool.map(try_layer, names):
            wrong += bool(lines)
            for line in lines:
                print(line)
    print(f"layers: {len(names)} examples, {wrong} wrong")
    return 1 if wrong else 0


if __name__ == "__main__":
    sys.exit(main(sys.argv[1:]))
