#!/usr/bin/env python3
"""Checks that the shards of psh-schedules come to what one run of it does.

usage: try_shards.py [PSH_SCHEDULES]

The program is that of crates/psh_schedules/out where it isn't given. Each script below is run at once, and as several shards by `xargs -P`
that `psh-schedules merge` puts together. Both have to tell the same, with the same exit status, and with --keep the same files. Then
it is tried that merge says which shard is missing, and refuses a shard that is given twice, those of another run, a file that is cut off,
and one whose lines are changed; and that a wrong --shard is wrong usage.

Prints a line for each script and fault, and at the end how many are right and wrong. Ends with 1 where one is wrong.
"""
import os
import subprocess
import sys
import tempfile

import pack_image

TOP = os.path.dirname(os.path.dirname(os.path.abspath(__file__)))

# Scripts, how many preemptions a schedule has at most, and how many shards there are.
SCRIPTS = [
    ("echo a", 2, 4),
    ("echo a & echo b & wait", 0, 2),
    ("echo a & echo b & wait", 1, 4),
    ("echo a & echo b & wait", 2, 4),
    ("echo a & echo b & wait", 2, 7),
    ("x=1; (x=2) & wait; echo $x", 2, 3),
    ("echo a >f & echo b >f; wait", 2, 4),
    ("read x </dev/tty & wait", 1, 2),
    ("echo a | cat & echo b", 1, 4),
]
IMAGE = pack_image.image_of(pack_image.with_stock(["cat"], {}))

# A run that takes longer than these seconds has failed.
LONGEST = 300


class Tries:
    """Runs of the program in a folder, and how many went as they should."""

    def __init__(self, program, folder):
        self.program, self.folder = program, folder
        self.right = self.wrong = 0

    def run(self, *words):
        """What the program writes to these words, and its exit status."""
        done = subprocess.run([self.program, *words], cwd=self.folder, stdin=subprocess.DEVNULL, capture_output=True, timeout=LONGEST, check=False)
        return done.returncode, done.stdout, done.stderr

    def judge(self, name, is_right):
        self.right += is_right
        self.wrong += not is_right
        print(f"{name}: {'right' if is_right else 'wrong'}", flush=True)

    def kept(self, name):
        """The files of events in a folder, which is emptied."""
        top = f"{self.folder}/{name}"
        files = {}
        for it in sorted(os.listdir(top)):
            with open(f"{top}/{it}", "rb") as file:
                files[it] = file.read()
            os.remove(f"{top}/{it}")
        return files

    def shards(self, count, *words):
        """Runs the shards, four at a time, each into a file; gives the files' names."""
        line = 'exec "$0" --shard "$1/$2" "${@:3}" >"shard.$1"'
        numbers = "".join(f"{it}\n" for it in range(1, count + 1)).encode()
        call = ["xargs", "-P", "4", "-I", "{}", "bash", "-c", line, self.program, "{}", str(count), *words]
        subprocess.run(call, cwd=self.folder, input=numbers, timeout=LONGEST, check=True)
        return [f"shard.{it}" for it in range(1, count + 1)]


def try_script(tries, script, preemptions, count):
    words = ["--preemptions", str(preemptions), "--keep", "kept", "-c", script, "image"]
    one = tries.run(*words)
    kept = tries.kept("kept")
    files = tries.shards(count, *words)
    merged = tries.run("merge", *reversed(files))
    counts = [int(open(f"{tries.folder}/{it}", "rb").read().split(b"\nschedules ")[1].split(b"\n")[0]) for it in files]
    is_right = merged == one and tries.kept("kept") == kept
    tries.judge(f"{script}, {preemptions} preemptions, {'+'.join(map(str, counts))} schedules", is_right)


def try_fault(tries, name, status, said, *words):
    """Tries that words end so, with nothing written but this on standard error."""
    tries.judge(name, tries.run(*words) == (status, b"", said.encode()))


def try_faults(tries):
    words = ["-c", "echo a & echo b & wait", "image"]
    files = tries.shards(4, *words)
    try_fault(tries, "a missing shard", 1, "psh-schedules: shard 3 of 4 is missing\n", "merge", files[0], files[1], files[3])
    try_fault(tries, "a shard twice", 1, "psh-schedules: shard.2: line 1: this shard was given before\n", "merge", *files, files[1])
    try_fault(tries, "no file", 2, "usage: psh-schedules merge FILE..\n", "merge")
    try_fault(tries, "a file that isn't there", 4, "psh-schedules: cannot read: nowhere\n", "merge", "nowhere")
    with open(f"{tries.folder}/shard.1", "rb") as file:
        whole = file.read()
    with open(f"{tries.folder}/cut", "wb") as file:
        file.write(whole[:-4])
    try_fault(tries, "a file that is cut off", 1, f"psh-schedules: cut: line {whole.count(10)}: not as in the file of a shard\n", "merge", "cut")
    with open(f"{tries.folder}/changed", "wb") as file:
        file.write(whole.replace(b"\nrun 0\n", b"\nrun x\n", 1))
    place = whole.index(b"\nrun 0\n") + 1
    line = whole[:place].count(10) + 1
    try_fault(tries, "a line that is changed", 1, f"psh-schedules: changed: line {line}: not as in the file of a shard\n", "merge", "changed")
    _, other, _ = tries.run("--shard", "2/4", "--turns", "9", *words)
    with open(f"{tries.folder}/other", "wb") as file:
        file.write(other)
    try_fault(tries, "a shard of another run", 1, "psh-schedules: other: line 2: other words than in the first file\n", "merge", files[0], "other")
    for word in ["0/4", "5/4", "x", "1/0", "1/", "/4", "1/4/4", ""]:
        try_fault(tries, f"--shard '{word}'", 2, "psh-schedules: bad shard\n", "--shard", word, *words)
    try_fault(tries, "--shard behind others", 2, "psh-schedules: --shard has to be the first option\n", "-m", "--shard", "1/2", *words)


def main(program=f"{TOP}/crates/psh_schedules/out/psh_schedules"):
    program = os.path.abspath(program)
    if not os.access(program, os.X_OK):
        sys.exit(f"{program}: no program")
    with tempfile.TemporaryDirectory(prefix="shards-") as folder:
        tries = Tries(program, folder)
        os.mkdir(f"{folder}/kept")
        with open(f"{folder}/image", "wb") as file:
            file.write(IMAGE)
        for it in SCRIPTS:
            try_script(tries, *it)
        try_faults(tries)
    print(f"shards: {tries.right} right, {tries.wrong} wrong")
    return 1 if tries.wrong else 0


if __name__ == "__main__":
    if len(sys.argv) > 2 or any(it.startswith("-") for it in sys.argv[1:]):
        sys.exit(__doc__)
    sys.exit(main(*sys.argv[1:]))
