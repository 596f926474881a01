#!/usr/bin/env python3
"""Instructions for each schedule that psh-schedules tries, beside those of its turns alone.

usage: bench_schedules.py [PSH [PSH_SCHEDULES]]

The programs are those of crates/psh/out and crates/psh_schedules/out where they aren't given. For each script psh-schedules tries so many
schedules and twice as many under valgrind's callgrind; between the two are the instructions for one schedule. psh runs the schedule that
it keeps of the first outcome, and no event at all; between the two are the instructions for the turns. Prints both and their ratio.
"""
import os
import subprocess
import sys
import tempfile

import measuring

TOP = os.path.dirname(os.path.dirname(os.path.abspath(__file__)))

# Scripts, each with its number of preemptions, and how many schedules are tried at first.
SCRIPTS = [
    ("echo a & echo b & wait", 3, 50),
    ("for i in 1 2 3; do echo $i & done; wait", 3, 500),
    ("i=0; while [ $i -lt 30 ]; do i=$((i+1)); done & while [ ${j:=0} -lt 30 ]; do j=$((j+1)); done; wait", 1, 30),
]


def schedules(folder, program, image, script, preemptions, count):
    """The instructions of so many schedules."""
    words = [program, "--preemptions", str(preemptions), "--schedules", str(count), "-c", script, image]
    return measuring.instructions(folder, words, (0, 1))


def main(psh=f"{TOP}/crates/psh/out/psh", program=f"{TOP}/crates/psh_schedules/out/psh_schedules"):
    with tempfile.TemporaryDirectory() as folder:
        image, none = f"{folder}/image", f"{folder}/none"
        with open(image, "w", encoding="utf-8") as file:
            file.write("psh image 1\nend\n")
        with open(none, "w", encoding="utf-8"):
            pass
        for script, preemptions, count in SCRIPTS:
            first = schedules(folder, program, image, script, preemptions, count)
            last = schedules(folder, program, image, script, preemptions, 2 * count)
            each = (last - first) / count
            words = [program, "--preemptions", str(preemptions), "--schedules", str(count), "--keep", folder, "-c", script, image]
            subprocess.run(words, stdout=subprocess.DEVNULL, check=False)
            kept = f"{folder}/outcome-1.events"
            turns = measuring.instructions(folder, [psh, "-c", script, image, kept]) - measuring.instructions(folder, [psh, "-c", script, image, none])
            with open(kept, encoding="utf-8") as file:
                length = len(file.readlines())
            print(f"{script}: {each:,.0f} instructions a schedule; {length} turns alone {turns:,}; ratio {each / turns:.2f}", flush=True)


if __name__ == "__main__":
    if len(sys.argv) > 3 or any(it.startswith("-") for it in sys.argv[1:]):
        sys.exit(__doc__)
    main(*sys.argv[1:])
