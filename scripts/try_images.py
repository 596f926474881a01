#!/usr/bin/env python3
"""Packs folders as images and unpacks images, and tells what comes to something else than it should.

usage: try_images.py

A folder that is packed and unpacked is the same folder, and its image packs the same again. An image that is none, a path that leads out
of the folder, a file that is there and a link are refused, and nothing is written outside. Ends with 1 where anything is wrong.
"""
import os
import subprocess
import sys
import tempfile

SCRIPTS = os.path.dirname(os.path.abspath(__file__))
PACK, UNPACK = f"{SCRIPTS}/pack_image.py", f"{SCRIPTS}/unpack_image.py"

FILES = {"a": (b"a\n", 0o600), "d/e/run": (b"echo hi\n", 0o500), "d/empty": (b"", 0o400), "with a space": (b"\xff\x00\nend\n", 0o600)}

# Images that are refused, and a part of what is said.
REFUSED = {
    b"": "no image begins",
    b"psh image 2\nend\n": "no image begins",
    b"psh image 1\n": "too early",
    b"psh image 1\nfile /f rw- 9\nabc\nend\n": "too early",
    b"psh image 1\nfile /f rw- 2\nabc\nend\n": "too early",
    b"psh image 1\nfile /f rwz 1\na\nend\n": "no rights",
    b"psh image 1\nlink /f /g\nend\n": "neither",
    b"psh image 1\nend\nmore\n": "follows",
    b"psh image 1\ndir /d\ndir /d\nend\n": "twice",
    b"psh image 1\nfile /../out rw- 1\na\nend\n": "no path",
    b"psh image 1\nfile /d/../../out rw- 1\na\nend\n": "no path",
    b"psh image 1\nfile out rw- 1\na\nend\n": "no path",
    b"psh image 1\nfile //out rw- 1\na\nend\n": "no path",
    b"psh image 1\ndir /\nend\n": "no path",
}


def run(words, given=b""):
    return subprocess.run([sys.executable, *words], input=given, capture_output=True)


def content_of(folder):
    """What a folder holds: for each path its bytes and its mode, or None for a folder."""
    found = {}
    for place, folders, files in os.walk(folder):
        for name in folders:
            found[os.path.relpath(f"{place}/{name}", folder)] = None
        for name in files:
            with open(f"{place}/{name}", "rb") as it:
                found[os.path.relpath(f"{place}/{name}", folder)] = (it.read(), os.stat(f"{place}/{name}").st_mode & 0o777)
    return found


def filled(folder):
    """A folder with the files."""
    os.makedirs(f"{folder}/none")
    for path, (content, mode) in FILES.items():
        os.makedirs(os.path.dirname(f"{folder}/{path}"), exist_ok=True)
        with open(f"{folder}/{path}", "wb") as it:
            it.write(content)
        os.chmod(f"{folder}/{path}", mode)
    return folder


def tries(room):
    """What is wrong, a text for each."""
    mine = filled(f"{room}/mine")
    image = run([PACK, mine]).stdout
    with open(f"{room}/image", "wb") as it:
        it.write(image)
    made = run([UNPACK, f"{room}/image", f"{room}/copy"])
    if made.returncode or made.stderr or content_of(f"{room}/copy") != content_of(mine):
        yield f"the copy differs: {made.stderr.decode()}"
    if run([PACK, f"{room}/copy"]).stdout != image:
        yield "the image of the copy differs"
    report = b"psh image 1\nend\npsh image 1\n\nprocess 100 exited 0\n[1] + 100 Done :\n" + image
    made = run([UNPACK, "-", f"{room}/reported"], report)
    if made.returncode or content_of(f"{room}/reported") != content_of(mine):
        yield f"the files of a report differ: {made.stderr.decode()}"
    made = run([UNPACK, f"{room}/image", f"{room}/copy"])
    if made.returncode != 1 or b"File exists" not in made.stderr:
        yield f"a file that is there is no fault: {made.stderr.decode()}"
    os.makedirs(f"{room}/linked")
    os.symlink(mine, f"{room}/linked/d")
    before = content_of(mine)
    made = run([UNPACK, f"{room}/image", f"{room}/linked"])
    if made.returncode != 1 or content_of(mine) != before:
        yield f"a link was followed: {made.stderr.decode()}"
    for text, said in REFUSED.items():
        with open(f"{room}/wrong", "wb") as it:
            it.write(text)
        made = run([UNPACK, f"{room}/wrong", f"{room}/bad"])
        if made.returncode != 1 or said.encode() not in made.stderr:
            yield f"{text!r}: {made.returncode} {made.stderr.decode()}"
    if os.path.exists(f"{room}/bad") or os.path.exists(f"{room}/out"):
        yield "something was written of an image that was refused"


def main():
    with tempfile.TemporaryDirectory() as room:
        wrong = list(tries(room))
    for text in wrong:
        print(text)
    print(f"images: {len(wrong)} wrong")
    sys.exit(1 if wrong else 0)


main()
