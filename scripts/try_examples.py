#!/usr/bin/env python3
"""Runs the examples, and tells which come to something else than their folders say.

usage: try_examples.py [PSH]
       try_examples.py --gallery

PSH is crates/psh/out/psh where it isn't given. Each folder in examples/ is one example; examples/README.md says what it holds and how it
is run. Where it has no script its commands are typed. A run has to end with 0, to write what is in `terminal` and nothing to standard
error; where the folder has a `report`, a run with --report has to write that too. Where it hasn't, the shell has to have ended. A folder
has to have all its files, and its README to name a section of the standard; docs/GALLERY.md has to be what --gallery writes. What PSH
writes to standard error when it is asked for help, such as that it isn't proved, is left out. Ends with 1 where anything is wrong.
"""
import os
import re
import subprocess
import sys

TOP = os.path.dirname(os.path.dirname(os.path.abspath(__file__)))
EXAMPLES = f"{TOP}/examples"
GALLERY = f"{TOP}/docs/GALLERY.md"

# What each folder has, and what it may have.
FILES = ["README.md", "events", "image", "terminal"]
FURTHER = ["report", "script"]

# A page: a title, what the example shows, where the standard says it, and what to look at.
PAGE = re.compile(r"# (.+)\n\nShows: (.+)\n\nStandard: (.*\bXCU .+)\n\nLook at: .+\n")

# A run that takes longer than these seconds has failed.
LONGEST = 120

HEAD = """# Gallery

Scripts, and sessions that are typed, which show one thing each. `examples/README.md` says how to run them. `scripts/try_examples.py --gallery` writes this page, and
`scripts/try_examples.py` runs all of them and checks that the page is current.

| example | shows | standard | the first line that it writes |
|---|---|---|---|
"""


def names():
    """The names of the examples."""
    return sorted(it for it in os.listdir(EXAMPLES) if os.path.isdir(f"{EXAMPLES}/{it}"))


def content(name, file):
    with open(f"{EXAMPLES}/{name}/{file}", "rb") as it:
        return it.read()


def page_of(name):
    """The parts of an example's page, or None where it isn't as a page is."""
    return PAGE.fullmatch(content(name, "README.md").decode())


def row_of(name):
    """The row of an example in the gallery."""
    _, shows, standard = page_of(name).groups()
    line = content(name, "terminal").split(b"\n")[0].decode()
    cells = [f"[{name}](../examples/{name}/README.md)", shows, standard, f"`{line}`"]
    return "| " + " | ".join(it.replace("|", "\\|") for it in cells) + " |\n"


def gallery():
    """The text of the gallery."""
    return HEAD + "".join(row_of(name) for name in names())


def is_gallery_current():
    """Whether the page has the text of the gallery."""
    if not os.path.exists(GALLERY):
        return False
    with open(GALLERY, encoding="utf-8") as it:
        return it.read() == gallery()


def lacks_of(name):
    """What an example's folder lacks, as lines."""
    there = set(os.listdir(f"{EXAMPLES}/{name}"))
    lacks = [f"{name} has no {it}" for it in FILES if it not in there]
    lacks += [f"{name} has {it}, which is no part of an example" for it in sorted(there - {*FILES, *FURTHER})]
    if not lacks and not page_of(name):
        lacks.append(f"{name}: README.md isn't as such a page is, or names no section of the standard")
    return lacks


def run(program, name, options):
    """What a run comes to: its exit status, standard output and standard error."""
    is_typed = not os.path.exists(f"{EXAMPLES}/{name}/script")
    source = [] if is_typed else ["-c", content(name, "script").rstrip(b"\n")]
    words = [program, *options, *source, "image", "events"]
    try:
        done = subprocess.run(words, cwd=f"{EXAMPLES}/{name}", stdin=subprocess.DEVNULL, capture_output=True, timeout=LONGEST)
    except subprocess.TimeoutExpired:
        return None
    return done.returncode, done.stdout, done.stderr


def faults_of(program, name, said):
    """What is wrong with an example, as lines. What the program says of itself is left out."""
    lacks = lacks_of(name)
    if lacks:
        return lacks
    terminal = content(name, "terminal")
    has_report = os.path.exists(f"{EXAMPLES}/{name}/report")
    wanted = (0, terminal, said)
    found = run(program, name, [])
    if found != wanted:
        return [f"{name} came to {found or 'no end'}, and not to {wanted}"]
    status, out, err = run(program, name, ["--report"]) or (None, b"", b"")
    if has_report and (status, out, err) != (0, terminal + b"\n" + content(name, "report"), said):
        return [f"{name} with --report came to {out!r}, and not to its terminal and its report"]
    if not has_report and not out[len(terminal) :].startswith(b"\nprocess 100 exited "):
        return [f"{name} hasn't ended: with --report it came to {out!r}"]
    return []


def main(program=f"{TOP}/crates/psh/out/psh"):
    program = os.path.abspath(program)
    if not os.access(program, os.X_OK):
        sys.exit(f"{program}: no program")
    said = subprocess.run([program, "--help"], stdout=subprocess.DEVNULL, stderr=subprocess.PIPE).stderr
    if said:
        print(f"left out of what is said: {said!r}")
    faults = {name: faults_of(program, name, said) for name in names()}
    wrong = sum(bool(it) for it in faults.values())
    for lines in faults.values():
        print("\n".join(lines), end="\n" if lines else "")
    is_current = not any(lacks_of(name) for name in names()) and is_gallery_current()
    if not is_current:
        print("docs/GALLERY.md isn't what try_examples.py --gallery writes")
    print(f"examples: {len(faults) - wrong} right, {wrong} wrong")
    return 0 if faults and is_current and not wrong else 1


if __name__ == "__main__":
    if sys.argv[1:] == ["--gallery"]:
        sys.stdout.write(gallery())
    elif len(sys.argv) <= 2 and not any(it.startswith("-") for it in sys.argv[1:]):
        sys.exit(main(*sys.argv[1:]))
    else:
        sys.exit(__doc__)
