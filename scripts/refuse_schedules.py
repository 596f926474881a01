#!/usr/bin/env python3
"""Refuses each growth of memory in turn in psh-schedules and psh-timeline as they were built.

usage: refuse_schedules.py [PSH_SCHEDULES [PSH_TIMELINE]]

The programs are those of crates/psh_schedules/out and crates/psh_timeline/out where they aren't given. Each run must answer as with ample
memory, or with 3, `out of memory` behind the program's name, and a beginning of what it writes with ample memory. Needs a C compiler.
"""
import os
import subprocess
import sys
import tempfile

from refuse_growth import QUIET, SHIM, write_image

TOP = os.path.dirname(os.path.dirname(os.path.abspath(__file__)))

# The words of runs of psh-schedules, in a folder with an image; the last puts together what the two before it wrote.
EXPLORATIONS = [
    ["--preemptions", "1", "-c", "echo a & echo b & wait", "image"],
    ["--preemptions", "1", "--schedules", "5", "-c", "x=1; (x=2) & wait; echo $x >f; cat f | having 1", "image"],
    ["--all", "--turns", "6", "-c", "cat <in | cat", "image"],
    ["--preemptions", "0", "--keep", "kept", "-c", "read x </dev/tty & echo $(echo a) & wait", "image"],
    ["--preemptions", "many", "-c", ":", "image"],
    ["--shard", "1/2", "--preemptions", "1", "-c", "echo a & echo b & wait", "image"],
    ["--shard", "2/2", "--preemptions", "1", "-c", "echo a & echo b & wait", "image"],
    ["merge", "shard1", "shard2"],
]

# The words of runs of psh-timeline.
PICTURES = [
    ["-c", "echo 'a<b' & cat <in | head -n 1; wait", "image", "events"],
    ["--text", "-c", "trap 'echo t' INT; cat; echo $?", "image", "events"],
    ["--text", "-c", "fi", "image", "events"],
]
EVENTS = "next 12\nkey 61\nkey 0a\nnext 4\nkey 03\nnext 20\n"


class Program:
    """A program that is run in a folder, with a library that refuses a growth."""

    def __init__(self, path, name, folder):
        self.path, self.name, self.folder, self.shim = os.path.abspath(path), name, folder, f"{folder}/shim.so"

    def run(self, words, refused=0):
        """What a run comes to in which this growth is refused, or none: its exit status, and what it wrote to both outputs."""
        env = {"LD_PRELOAD": self.shim, "REFUSE": str(refused)} if refused else {}
        done = subprocess.run([self.path, *words], cwd=self.folder, stdin=subprocess.DEVNULL, capture_output=True, env=env)
        return done.returncode, done.stdout, done.stderr

    def refuse_all(self, words):
        """Refuses each growth in turn; the number of refusals, and of bad ones."""
        whole = self.run(words)
        wanting = f"{self.name}: out of memory\n".encode()
        refusals = bad = growth = quiet = 0
        while quiet < QUIET:
            growth += 1
            status, out, said = self.run(words, growth)
            if (status, out, said) == whole:
                quiet += 1
                continue
            quiet = 0
            refusals += 1
            if not (status == 3 and whole[1].startswith(out) and said == wanting):
                bad += 1
                print(f"growth {growth} of {self.name} {words}: status {status}, {out[-80:]}, {said}")
        print(f"{self.name} {' '.join(words)}: {refusals} refusals", flush=True)
        return refusals, bad


def main(schedules=f"{TOP}/crates/psh_schedules/out/psh_schedules", timeline=f"{TOP}/crates/psh_timeline/out/psh_timeline"):
    for path in (schedules, timeline):
        if not os.access(path, os.X_OK):
            sys.exit(f"{path}: no program")
    refusals = bad = 0
    with tempfile.TemporaryDirectory() as folder:
        os.mkdir(f"{folder}/kept")
        write_image(f"{folder}/image")
        with open(f"{folder}/events", "w", encoding="utf-8") as file:
            file.write(EVENTS)
        subprocess.run(["cc", "-shared", "-fPIC", "-x", "c", "-", "-o", f"{folder}/shim.so"], input=SHIM.encode(), check=True)
        explorer, painter = Program(schedules, "psh-schedules", folder), Program(timeline, "psh-timeline", folder)
        for words in EXPLORATIONS:
            if words[0] == "--shard":
                with open(f"{folder}/shard{words[1][0]}", "wb") as file:
                    file.write(explorer.run(words)[1])
        for program, words in [(explorer, it) for it in EXPLORATIONS] + [(painter, it) for it in PICTURES]:
            more, bad_ones = program.refuse_all(words)
            refusals += more
            bad += bad_ones
    print(f"{refusals} refusals, {bad} bad")
    return 1 if bad else 0


if __name__ == "__main__":
    if len(sys.argv) > 3 or any(it.startswith("-") for it in sys.argv[1:]):
        sys.exit(__doc__)
    sys.exit(main(*sys.argv[1:]))
