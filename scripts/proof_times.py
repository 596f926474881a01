#!/usr/bin/env python3
"""Prints what the proof of a crate took, in seconds, for each function and definition that took longest.

usage: proof_times.py CRATE [COUNT]

It reads when the files in crates/CRATE/out/incremental were written, so it tells of a check from nothing by one process
(rt check --jobs 1, out/ being gone). With more processes it tells what was written next to what. A pause of the machine
counts for the file behind it.
"""
import collections
import os
import re
import sys

# The parts of a function's proof, which stand behind its name in a file's.
PARTS = re.compile(
    r"Lts|Carried|Goals|Given|Answers|Proof|Met|Code|Statement|Invariants|Kinds|Layout|Reads|Tie|The\w+"
)


def function_of(name, crate):
    """The function or definition of which a file tells."""
    name = name.removeprefix(f"Rattle-{crate}").removesuffix(".oantt")
    name = re.sub(r"^-(proofs|specs)\.(contracts\.|declared\.)?", "", name)
    words = []
    for word in name.split("."):
        if PARTS.match(word):
            break
        words.append(word)
    return ".".join(words) or "the crate"


def written(folder):
    """When each file was written, the earliest first."""
    found = []
    for place, _, names in os.walk(folder):
        if "/records" not in place:
            found += [(os.path.getmtime(f"{place}/{it}"), it) for it in names if it.endswith(".oantt")]
    return sorted(found)


def main(crate, count=20):
    top = os.path.dirname(os.path.dirname(os.path.abspath(__file__)))
    files = written(f"{top}/crates/{crate}/out/incremental")
    if not files:
        sys.exit(f"crates/{crate}/out has no proof: run rt check there first")
    seconds = collections.Counter()
    for (before, _), (time, name) in zip(files, files[1:]):
        seconds[function_of(name, crate)] += time - before
    print(f"{sum(seconds.values()):.0f} s in {len(files)} files")
    for name, time in seconds.most_common(int(count)):
        print(f"{time:8.1f}  {name}")


if __name__ == "__main__":
    if len(sys.argv) not in (2, 3):
        sys.exit(__doc__)
    main(*sys.argv[1:])
