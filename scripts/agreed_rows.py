#!/usr/bin/env python3
"""Writes rows for run_script_rows.py: scripts made at random, with what five real shells agree that they come to.

usage: agreed_rows.py [COUNT [SEED [KIND ..]]]

Writes crates/psh/rows-scripts/agreed.image and crates/psh/rows-scripts/agreed: COUNT rows of each kind of
compare_shells.py, without operands. Where kinds are named, the rows of these are written, and those of others stay as they
are. Left out are scripts with a diagnostic, since its text differs, and those on which dash, bash, yash, mksh and busybox
don't agree in output and status. What real shells tell of a process that a signal ended is no diagnostic: in `signals` it
is left out of what dash writes, and what the others write isn't looked at. psh has no say in what is written.
"""
import os
import re
import shutil
import subprocess
import sys
import tempfile

import compare_shells

FOLDER = f"{compare_shells.TOP}/crates/psh/rows-scripts"
HEAD = """# Scripts made at random (scripts/agreed_rows.py), and what dash, bash, yash, mksh and busybox agree that they come to, on the
# files of agreed.image. Each comes to it in six orders of turns: `comes STATUS TERMINAL SCRIPT`, with tabs between the fields, and
# \\n, \\t and \\\\ in them for a newline, a tab and a backslash."""


def come(room, shell, script, kind):
    """The output and the status, or none where there is a diagnostic."""
    compare_shells.lay(room)
    how = {"stdin": subprocess.DEVNULL, "stdout": subprocess.PIPE, "stderr": subprocess.PIPE, "cwd": f"{room}/cwd"}
    how["env"] = {"PATH": f"{room}/bin:/usr/bin:/bin", "LC_ALL": "C"}
    ran = subprocess.run([*compare_shells.NOBODY, *shell, "-c", script, "psh"], timeout=20, **how)
    said = ran.stderr
    if kind == "signals":
        said = re.sub(rb"(?m)^(Hangup|Killed|User defined signal [12]|Broken pipe|Terminated) *\n", b"", said) if shell[0] == "dash" else b""
    return None if said else (ran.stdout, ran.returncode)


def field(text):
    return text.replace("\\", "\\\\").replace("\n", "\\n").replace("\t", "\\t")


def rows(room, kind, count, seed):
    source, found = compare_shells.KINDS[kind](seed), []
    while len(found) < count:
        script = source.script()
        first = come(room, compare_shells.SHELLS[0], script, kind)
        # (a status that tells of a signal is numbered by shells in their own ways)
        if first is None or not 0 <= first[1] <= 128 or not first[0].isascii():
            continue
        if all(come(room, it, script, kind) == first for it in compare_shells.SHELLS[1:]):
            found.append(f"comes\t{first[1]}\t{field(first[0].decode())}\t{field(script)}")
    return found


def standing():
    """The rows that the file has, by their kinds."""
    found, kind = {}, None
    with open(f"{FOLDER}/agreed", encoding="ascii") as it:
        for line in it.read().split("\n")[len(HEAD.split("\n")):]:
            if line.startswith("# "):
                kind = line[2:]
                found[kind] = []
            elif line:
                found[kind].append(line)
    return found


def main(count=200, seed=1, *kinds):
    lacking = [it[0] for it in compare_shells.SHELLS if not shutil.which(it[0])]
    if lacking:
        sys.exit(f"not installed: {' '.join(lacking)}")
    found = standing() if kinds else {}
    with tempfile.TemporaryDirectory(prefix="rows-") as room:
        os.chmod(room, 0o755)
        compare_shells.make_bin(room)
        for kind in kinds or compare_shells.KINDS:
            found[kind] = rows(room, kind, int(count), int(seed))
    lines = [HEAD]
    for kind in found:
        lines += ["", f"# {kind}", *found[kind]]
    for name, text in (("agreed.image", compare_shells.image()), ("agreed", "\n".join(lines) + "\n")):
        with open(f"{FOLDER}/{name}", "w", encoding="ascii") as it:
            it.write(text)


if __name__ == "__main__":
    if not all(it.isdigit() for it in sys.argv[1:3]) or not all(it in compare_shells.KINDS for it in sys.argv[3:]):
        sys.exit(__doc__)
    main(*sys.argv[1:])
