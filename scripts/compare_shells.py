#!/usr/bin/env python3
"""Runs scripts made at random by psh and by real shells, and shows those in which psh stands alone.

usage: compare_shells.py words|documents|processes|lists|errexit|case|builtins|functions|traps|texts|input|asynchronous|signals
                         [COUNT [SEED]]

`words` expands words of every form, nested, with several IFS and positional parameters, into the fields that a program
then shows. `documents` does so in bodies of here-documents and in assignments. `processes` runs pipelines, redirections,
here-documents, assignments and command substitutions over a few files, and shows these at the end. `lists` runs such
commands in AND-OR lists, groups, subshells, conditions and loops, some of which are left by break and continue. `errexit` does
so under `set -e`. `case` adds commands of that name, whose words and patterns are quoted, expanded and change variables.
In all of these every fourth compound command has redirections, and commands in it may read what it is given.
`builtins` adds built-ins that act on variables, options, parameters and the directory, and conditions. `functions` defines
functions with bodies of every form, calls and unsets them, and has `return` and `eval`, some of it under `set -e`. `traps` sets
traps on the exit of the shell, of subshells, substitutions and stages, and leaves these in every way, some under `set -e`. `texts` writes
dot scripts and runs them, and has `exec`. `input` reads lines from files, here-documents and pipes, with several IFS and in loops, and has
`command`. `asynchronous` starts asynchronous lists of every form and waits for them. `signals` sets traps on signals that the
shell sends itself and that its processes send it, and has processes that signals end. Scripts do nothing whose result depends on the order of turns.

Shown is a script where no real shell gives what psh gives, and one where four or more agree with one another and not with
psh; diagnostics are left out, since their texts differ. The shells are those of dash, bash, yash, mksh and busybox that are
installed. They run as nobody, in folders of their own. Needs what ./build builds.
"""
import os
import re
import shutil
import subprocess
import sys
import tempfile

from random_asynchronous import Asynchronous
from random_scripts import SOURCES
from random_signals import Signals

TOP = os.path.dirname(os.path.dirname(os.path.abspath(__file__)))
PSH = os.environ.get("PSH", f"{TOP}/out/psh")
KINDS = SOURCES | {"asynchronous": Asynchronous, "signals": Signals}
SHELLS = [["dash"], ["bash", "--posix"], ["yash", "-o", "posixly-correct"], ["mksh"], ["busybox", "ash"]]
# (another user runs the shells as itself)
NOBODY = [] if os.geteuid() else ["setpriv", "--reuid=65534", "--regid=65534", "--clear-groups", "--no-new-privs"]

# Scripts and programs of the stock that both sides find in PATH, and what stands for the latter beside real shells.
SCRIPTS = {
    "show": 'echo "$#<$1><$2><$3><$4><$5><$6><$7><$8><$9>" "$x" "$y"\n',
    "two": "echo one\necho two >&2\n",
    "vars": 'echo "v:$x:$y:$#"\n',
    "st7": "exit 7\n",
    "sub": 'x=$(cat)\necho "[$x]"\n',
    # sends a signal to itself, and to the shell that waits for it
    "me": 'kill -s "$1" $$\necho on\n',
    "up": 'kill -s "$1" $PPID\n',
}
STOCK = ["cat", "count", "echo", "false", "having", "head", "spin", "true"]
# (`wc -c` alone would ask for the length of a file, and leave what it was to read to those after it)
STAND_IN = {"having": 'exec grep -F -- "$1"\n', "count": 'cat | wc -c | tr -d " "\n', "spin": "exec sleep 60\n"}
FILES = {"in": "apple\nplum\npear\nplum pie\n", "a": "A\n", "long": "0123456789\n" * 60, "nl": "no newline"}


def image():
    """The image of files for psh."""
    entries = [(f"/bin/{name}", "r-x", f"#!stock {name}\n") for name in STOCK]
    entries += [(f"/bin/{name}", "r-x", text) for name, text in SCRIPTS.items()]
    entries += [(f"/{name}", "rw-", text) for name, text in FILES.items()]
    files = "".join(f"file {path} {flags} {len(text)}\n{text}\n" for path, flags, text in entries)
    return f"psh image 1\ndir /bin\ndir /w\n{files}end\n"


def make_bin(room):
    """The same programs for real shells."""
    os.mkdir(f"{room}/bin")
    for name, text in {**SCRIPTS, **STAND_IN}.items():
        with open(f"{room}/bin/{name}", "w", encoding="ascii") as it:
            it.write(f"#!/bin/sh\n{text}")
        os.chmod(f"{room}/bin/{name}", 0o755)


def by_psh(room, script, operands):
    words = [PSH, "-c", script, f"{room}/image", f"{room}/events", "psh", *operands]
    return subprocess.run(words, stdin=subprocess.DEVNULL, stdout=subprocess.PIPE, check=True).stdout


def lay(room):
    """The files on which a real shell runs a script, in a folder of its own."""
    folder = f"{room}/cwd"
    shutil.rmtree(folder, ignore_errors=True)
    for name in ("bin", "dev", "w"):
        os.makedirs(f"{folder}/{name}")
        os.chmod(f"{folder}/{name}", 0o777)
    for name, text in FILES.items():
        with open(f"{folder}/{name}", "w", encoding="ascii") as it:
            it.write(text)
        os.chmod(f"{folder}/{name}", 0o666)
    os.chmod(folder, 0o777)


def by_shell(room, shell, script, operands):
    lay(room)
    how = {"stdin": subprocess.DEVNULL, "stdout": subprocess.PIPE, "stderr": subprocess.DEVNULL}
    how |= {"cwd": f"{room}/cwd", "env": {"PATH": f"{room}/bin:/usr/bin:/bin", "LC_ALL": "C"}}
    return subprocess.run([*NOBODY, *shell, "-c", script, "psh", *operands], timeout=20, **how).stdout


def main(kind, count=200, seed=1):
    source = KINDS[kind](int(seed))
    shells = [it for it in SHELLS if shutil.which(it[0])]
    alone = 0
    with tempfile.TemporaryDirectory(prefix="shells-") as room:
        os.chmod(room, 0o755)
        make_bin(room)
        for name, text in (("image", image()), ("events", "next 20000\n")):
            with open(f"{room}/{name}", "w", encoding="ascii") as it:
                it.write(text)
        for _ in range(int(count)):
            script, operands = source.script(), source.pick(source.operands)
            ours = re.sub(rb"psh: [^\n]*\n", b"", by_psh(room, script, operands))
            theirs = [by_shell(room, it, script, operands) for it in shells]
            most = max(theirs, key=theirs.count)
            if ours not in theirs or ours != most and theirs.count(most) >= 4:
                alone += 1
                print(f"{script}\n  {operands}\n  psh: {ours}")
                print("\n".join(f"  {it[0]}: {shown}" for it, shown in zip(shells, theirs)), flush=True)
    print(f"{count} scripts, {len(shells)} shells; psh alone in {alone}")
    return 1 if alone else 0


if __name__ == "__main__":
    if len(sys.argv) not in (2, 3, 4) or sys.argv[1] not in KINDS:
        sys.exit(__doc__)
    sys.exit(main(*sys.argv[1:]))
