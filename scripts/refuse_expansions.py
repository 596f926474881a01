#!/usr/bin/env python3
"""Refuses each growth of memory in turn where words are expanded.

In the built program: scripts on the image of the stock programs. A run that a refusal changes must end with 3, the line
`psh: out of memory` on standard error and, as output, the terminal's bytes after some of the events.

In test_calls, which judges the rows of its file `expansions`. A run that a refusal changes must end with 1, one row coming to
`refused`, where a call was refused, or with 3 and a line on standard error where memory was wanting beside the calls; any other is bad.

Needs a C compiler. Build first: ./build, and rt run in crates/test_calls. The words `program` and `expand` choose one of the
two.
"""
import os
import re
import subprocess
import sys
import tempfile

from refuse_growth import SHIM

TOP = os.path.dirname(os.path.dirname(os.path.abspath(__file__)))
PROGRAMS = ["cat", "count", "echo", "false", "having", "head", "readstop", "spin", "true", "yes"]
WANTING = b"psh: out of memory\n"

SOURCES = ["/src/", "/src/.hidden.c", "/src/list.c", "/src/list.h", "/src/main.c", "/src/read me"]

# A script, directories and empty files, words behind the events, turns, and the terminal.
ROWS = [
    ("echo a  \"b  c\" 'd'\\ e", [], [], 1000, "a b  c d e\n"),
    ("echo $((9223372036854775807+1))", [], [], 1000, "-9223372036854775808\n"),
    ("echo ok\nfi", [], [], 1000, "ok\npsh: syntax error\n"),
    ("echo *.c *.d", ["/a.c", "/b.c", "/.c"], [], 1000, "a.c b.c *.d\n"),
    ("echo a", [], [], 2, ""),
    ("echo a", [], [], 3, "a\n"),
    ("echo a", [], [], 4, "a\n"),
    ("echo a", [], [], 5, "a\n"),
    ("echo $((1/0)); echo no", [], [], 1000, "psh: arithmetic: division by zero\n"),
    ("x=a.b.c; echo ${x%.*} ${x%%.*} ${x#*.} ${x##*.}", [], [], 1000, "a.b a b.c c\n"),
    ("echo $# \"$@\"", [], ["z", "a b", "c"], 1000, "2 a b c\n"),
    ("p=a:b::c; IFS=:; echo $p; echo \"$p\"", [], [], 1000, "a b  c\na:b::c\n"),
    ("echo src/*.[ch] src/*.o; f=src/r*; echo $f \"$f\"", SOURCES, [], 1000, "src/list.c src/list.h src/main.c src/*.o\nsrc/read me src/r*\n"),
    ("f=$1; echo ${f##*/} ${f%.c}.o; echo $((2*${#f}))", [], ["psh", "/src/main.c"], 1000, "main.c /src/main.o\n22\n"),
    ("x=${y=a}$((z=2)); echo ~ ${x:-no} \"${y:+$z}\" ${none?gone}", [], [], 1000, "psh: none: gone\n"),
]


# An image, events, and the line by which they are refused.
REFUSED = [
    ("psh image 1\ndir /d\ndir /e\nfile /f rw- 10\nabc", "next 1\n", b"psh: Truncated: line 4\n"),
    ("psh image 1\nend\n", "next 1\nrun x\n", b"psh: BadEvent: line 2\n"),
]


def image_of(files):
    """The standard image, with directories and empty files behind it."""
    lines = ["psh image 1", "dir /bin"]
    for program in PROGRAMS:
        content = "#!stock %s\n" % program
        lines += ["file /bin/%s r-x %d" % (program, len(content)), content]
    lines += ["dir /tmp"]
    for path in files:
        lines += ["dir " + path[:-1]] if path.endswith("/") else ["file %s rw- 0" % path, ""]
    return "\n".join(lines + ["end", ""])


def run(words, shim=None, refused=0, folder=None):
    env = {"LD_PRELOAD": shim, "REFUSE": str(refused)} if refused else {}
    done = subprocess.run(words, capture_output=True, cwd=folder, env=env, timeout=60)
    return done.returncode, done.stdout, done.stderr


def refuse_all(name, words, shim, judge, folder=None):
    """Refuses the 1st, 2nd .. growth until 100 in a row change nothing; the number of refusals, and of bad ones."""
    whole = run(words, folder=folder)
    refusals = bad = quiet = n = 0
    while quiet < 100:
        n += 1
        got = run(words, shim, n, folder)
        quiet = quiet + 1 if got == whole else 0
        if got == whole:
            continue
        refusals += 1
        if not judge(got):
            bad += 1
            print("growth %d of %s: %r" % (n, name, got))
    return refusals, bad


def refuse_in_program(folder, shim):
    program = os.path.join(TOP, "out", "psh")
    image, events = os.path.join(folder, "image"), os.path.join(folder, "events")

    def turns(count):
        with open(events, "w") as file:
            file.write("next %d\n" % count if count else "")

    total = bad = 0
    for text, files, words, count, terminal in ROWS:
        with open(image, "w") as file:
            file.write(image_of(files))
        line = [program, "-c", text, image, events] + words
        fronts = []
        for k in range(min(count, 30) + 1):
            turns(k)
            fronts.append(run(line)[1])
        turns(count)
        ample = run(line)
        if ample != (0, terminal.encode(), b"") or fronts[-1] != ample[1]:
            bad += 1
            print("%r with ample memory: %r" % (text, ample))
        refusals, wrong = refuse_all(repr(text), line, shim, lambda got: got[0] == 3 and got[1] in fronts and got[2] == WANTING)
        print("%r, %d turns: %d refusals" % (text, count, refusals))
        total, bad = total + refusals, bad + wrong
    for held, lines, told in REFUSED:
        with open(image, "w") as file:
            file.write(held)
        with open(events, "w") as file:
            file.write(lines)
        line = [program, "-c", "echo a", image, events]
        if run(line) != (1, b"", told):
            bad += 1
            print("%r with ample memory: %r" % (told, run(line)))
        refusals, wrong = refuse_all(repr(told), line, shim, lambda got: got == (3, b"", WANTING))
        print("%r: %d refusals" % (told, refusals))
        total, bad = total + refusals, bad + wrong
    print("program: %d refusals, %d bad" % (total, bad))
    return bad


def refuse_in_rows(shim):
    crate = os.path.join(TOP, "crates", "test_calls")
    words, data = [os.path.join(crate, "out", "test_calls"), "values", "expansions"], os.path.join(crate, "data")
    ample = run(words, folder=data)
    told = re.fullmatch(rb"expansions: (\d+) rows, 0 wrong\n", ample[1])
    if not told or ample != (0, ample[1], b""):
        print("expansions with ample memory: %r" % (ample,))
        return 1
    refused = re.compile(rb"expansions: line \d+ comes to refused\nexpansions: %s rows, 1 wrong\n" % told[1])
    wanting = {b"test_calls: out of memory\n", b"expansions: out of memory\n", b"expansions: a file can't be read\n"}
    in_calls = 0

    def judge(got):
        nonlocal in_calls
        if got[0] == 1 and refused.fullmatch(got[1]) and not got[2]:
            in_calls += 1
            return True
        return got[0] == 3 and not got[1] and got[2] in wanting

    refusals, bad = refuse_all("expansions", words, shim, judge, data)
    print("expansions: %d refusals, %d of them in the calls, %d bad" % (refusals, in_calls, bad))
    return bad


def main():
    chosen = sys.argv[1:] or ["program", "expand"]
    bad = 0
    with tempfile.TemporaryDirectory() as folder:
        shim = os.path.join(folder, "shim.so")
        subprocess.run(["cc", "-shared", "-fPIC", "-x", "c", "-", "-o", shim], input=SHIM.encode(), check=True)
        if "program" in chosen:
            bad += refuse_in_program(folder, shim)
        if "expand" in chosen:
            bad += refuse_in_rows(shim)
    return 1 if bad else 0


if __name__ == "__main__":
    sys.exit(main())
