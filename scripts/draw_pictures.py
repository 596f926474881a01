#!/usr/bin/env python3
"""Draws the pictures that the pages show, and tells which aren't those that are there.

usage: draw_pictures.py PSH_TIMELINE [--write]

A picture is docs/NAME.svg: the run of the script, the image and the events of examples/NAME, as PSH_TIMELINE draws it. --write puts it
there. Ends with 1 where one differs, and where PSH_TIMELINE draws none.
"""
import os
import subprocess
import sys

TOP = os.path.dirname(os.path.dirname(os.path.abspath(__file__)))
NAMES = ["lost-update"]


def drawn(program, name):
    """What the program draws of an example, or None, once it is told why."""
    folder = f"{TOP}/examples/{name}"
    with open(f"{folder}/script", encoding="utf-8") as it:
        words = ["-c", it.read(), f"{folder}/image", f"{folder}/events"]
    try:
        ran = subprocess.run([program, *words], stdin=subprocess.DEVNULL, capture_output=True)
    except OSError as error:
        print(f"{program}: {error.strerror}")
        return None
    if ran.returncode or not ran.stdout:
        print(f"{program} draws no picture of examples/{name}, and ends with {ran.returncode}: {ran.stderr.decode(errors='replace')}")
        return None
    return ran.stdout


def is_there(path, picture):
    """Whether a file holds this picture."""
    if not os.path.isfile(path):
        return False
    with open(path, "rb") as it:
        return it.read() == picture


def main(words):
    if not words or words[0].startswith("-") or words[1:] not in ([], ["--write"]):
        sys.exit(__doc__)
    wrong = 0
    for name in NAMES:
        path, picture = f"{TOP}/docs/{name}.svg", drawn(words[0], name)
        if picture is None:
            wrong += 1
        elif words[1:]:
            with open(path, "wb") as it:
                it.write(picture)
        elif not is_there(path, picture):
            wrong += 1
            print(f"docs/{name}.svg isn't what {words[0]} draws of examples/{name}: scripts/draw_pictures.py PSH_TIMELINE --write draws it anew")
    print(f"pictures: {len(NAMES) - wrong} right, {wrong} wrong")
    return 1 if wrong else 0


if __name__ == "__main__":
    sys.exit(main(sys.argv[1:]))
