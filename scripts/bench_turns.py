#!/usr/bin/env python3
"""Instructions for each turn of the built program, and how they grow.

usage: bench_turns.py [many | waiting] [PROGRAM]

Runs scripts under valgrind's callgrind, each with two numbers of turns, and prints the instructions for one turn between
the two: of `yes | head -n N >/dev/null` and of `cat <big | cat | cat >out`, then of ten times the work, and of both behind
900 processes that have ended. The last line is the greatest ratio. With the word `many`: of the first behind 100,000
processes that have ended, which takes minutes, and the memory that psh takes after 1,000 and after 100,000 of them.

With the word `waiting`: of one process that goes on, beside 2 processes that can't move and beside 900. These read the terminal,
where nothing is typed, or a pipe into which nothing is written, or are stopped. At both sizes up to three more wait: shells,
and the writer of the pipe. What goes on is `yes`, which has the greatest number, or a loop of the shell that started the others.
The turns begin once all the others wait. The lines that are written show that each of them is one of what goes on; else the run
ends with a fault. The last line is the greatest ratio.

Needs valgrind, and psh built (./build), or a path to it as the last word.
"""

import os
import subprocess
import sys
import tempfile

import measuring

TOP = os.path.dirname(os.path.dirname(os.path.abspath(__file__)))
PROGRAM = f"{TOP}/out/psh"


def write_image(path, files):
    """Writes an image with the programs that are used and these files."""
    with open(path, "wb") as image:
        image.write(b"psh image 1\ndir /bin\n")
        for name in ("cat", "head", "true", "yes"):
            content = f"#!stock {name}\n".encode()
            image.write(f"file /bin/{name} r-x {len(content)}\n".encode() + content + b"\n")
        for name, content in files:
            image.write(f"file {name} rw- {len(content)}\n".encode() + content + b"\n")
        image.write(b"end\n")


def instructions(folder, image, script, turns):
    """The instructions of a run of so many turns."""
    events = measuring.write_events(f"{folder}/events", turns)
    return measuring.instructions(folder, [PROGRAM, "-c", script, image, events])


def each(folder, image, script, begin, end):
    """The instructions for one turn between two numbers of turns."""
    first = instructions(folder, image, script, begin)
    last = instructions(folder, image, script, end)
    return (last - first) / (end - begin)


# `yes | head -n 10000` takes some 20,000 turns, and what is measured is to end before: once all processes have ended an event costs little.
# A program in a line of its own takes six turns: reading, expansion, fork, start, end and wait.
TURNS = 6


def memory(folder, image, count):
    """The most memory of a run in which so many processes end, in KiB. The script is an operand, in the image."""
    events = measuring.write_events(f"{folder}/events", count * TURNS + 100)
    return measuring.memory([PROGRAM, image, events, f"/ends{count}"])


def many():
    """Behind 100,000 processes that have ended."""
    with tempfile.TemporaryDirectory() as folder:
        image = f"{folder}/image"
        write_image(image, [(f"/ends{count}", b"/bin/true\n" * count) for count in (1_000, 100_000)])
        filtered = "yes | head -n 10000 >/dev/null"
        late = "i=0; while [ $i -lt 100000 ]; do i=$((i+1)); (:); done; "
        base = each(folder, image, filtered, 1_000, 19_000)
        # a round has four turns of the shell and two of its subshell
        behind = 600_100
        last = each(folder, image, late + filtered, behind + 1_000, behind + 19_000)
        print(f"yes | head: {base:.0f} a turn, behind 100,000 ended processes {last:.0f}, ratio {last / base:.2f}")
        few, all_of_them = memory(folder, image, 1_000), memory(folder, image, 100_000)
        print(f"memory after 1,000 ended processes {few} KiB, after 100,000 {all_of_them} KiB, ratio {all_of_them / few:.2f}")


# How processes wait, what each of them runs, and what the script stands in.
WAYS = [
    ("read the terminal", "cat </dev/tty", "%s"),
    ("read a pipe", "cat <&3", "cat </dev/tty | { exec 3<&0; %s; }"),
    ("are stopped", "cat", "set -m; %s"),
]
# What goes on, and how many turns it takes for each line that it writes.
MOVERS = [("yes", 1), ("while :; do echo y; done", 3)]
# How many turns are measured: whole rounds of each.
MEASURED = 3_000


def beside(count, waiter, around, mover):
    """A script that starts so many processes that wait, and goes on with something."""
    return around % f"i=0; while [ $i -lt {count} ]; do i=$((i+1)); {waiter} & done; {mover}"


def all_wait(count):
    """A number of turns after which all of so many processes have long waited. Each takes six until it does, with those of the shell."""
    return 1_000 + 6 * count


def lines(folder, image, script, turns):
    """How many lines the terminal has after so many turns."""
    events = measuring.write_events(f"{folder}/events", turns)
    ran = subprocess.run([PROGRAM, "-c", script, image, events], stdout=subprocess.PIPE, check=True)
    return ran.stdout.count(b"\n")


def each_of_mover(folder, image, script, begin, per_line):
    """The instructions for one turn of what goes on. Ends where another process takes one, or none does."""
    end = begin + MEASURED
    written = lines(folder, image, script, end) - lines(folder, image, script, begin)
    if written * per_line != MEASURED:
        sys.exit(f"{script}: {written} lines in {MEASURED} turns from {begin} on, and not {MEASURED // per_line}")
    return each(folder, image, script, begin, end)


def waiting():
    """Beside 2 processes that wait, and beside 900."""
    ratios = []
    with tempfile.TemporaryDirectory() as folder:
        image = f"{folder}/image"
        write_image(image, [])
        for way, waiter, around in WAYS:
            for mover, per_line in MOVERS:
                scripts = [(beside(count, waiter, around, mover), all_wait(count)) for count in (2, 900)]
                few, many_of_them = (each_of_mover(folder, image, script, begin, per_line) for script, begin in scripts)
                ratios.append(many_of_them / few)
                print(f"{mover}: {few:.0f} a turn beside 2 processes that {way}, {many_of_them:.0f} beside 900, ratio {ratios[-1]:.2f}", flush=True)
    print(f"greatest ratio {max(ratios):.2f}")


def main():
    with tempfile.TemporaryDirectory() as folder:
        small, large = f"{folder}/small", f"{folder}/large"
        write_image(small, [("/big", b"x" * (1 << 20))])
        write_image(large, [("/big", b"x" * (10 << 20))])
        filtered = "yes | head -n {} >/dev/null"
        copied = "cat <big | cat | cat >out"
        behind = "/bin/true\n" * 900
        ended = 900 * TURNS
        ratios = []
        base = each(folder, small, filtered.format(10_000), 1_000, 19_000)
        more = each(folder, small, filtered.format(100_000), 1_000, 190_000)
        ratios.append(more / base)
        print(f"yes | head: {base:.0f} a turn, ten times the lines {more:.0f}, ratio {more / base:.2f}")
        late = each(folder, small, behind + filtered.format(10_000), ended + 1_000, ended + 19_000)
        ratios.append(late / base)
        print(f"the same behind 900 ended processes: {late:.0f}, ratio {late / base:.2f}")
        base = each(folder, small, copied, 100, 6_100)
        more = each(folder, large, copied, 100, 61_000)
        ratios.append(more / base)
        print(f"cat | cat | cat: {base:.0f} a turn over 1 MiB, over 10 MiB {more:.0f}, ratio {more / base:.2f}")
        late = each(folder, small, behind + copied, ended + 100, ended + 6_100)
        ratios.append(late / base)
        print(f"the same behind 900 ended processes: {late:.0f}, ratio {late / base:.2f}")
        print(f"greatest ratio {max(ratios):.2f}")


KINDS = {"many": many, "waiting": waiting}
words = sys.argv[1:]
run = KINDS[words.pop(0)] if words and words[0] in KINDS else main
if words:
    PROGRAM = os.path.abspath(words[0])
if len(words) > 1 or words and not os.access(PROGRAM, os.X_OK):
    sys.exit(__doc__)
run()
