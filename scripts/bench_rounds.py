#!/usr/bin/env python3
"""Instructions for each round of a loop in the built program, beside dash's, and how they grow.

Runs `while [ $i -lt N ]; do i=$((i+1)); done` under valgrind's callgrind, with two numbers of rounds, and prints the
instructions for one round between the two; then the same inside 200 groups, the memory after 1,000 and 100,000 rounds,
what some commands add to a round, and a call of a function inside 1 call and inside 900. The last line is the greatest ratio of growth. Needs valgrind, dash, and psh built
(./build), or a path to it as the only word.
"""

import os
import sys
import tempfile

import measuring

TOP = os.path.dirname(os.path.dirname(os.path.abspath(__file__)))
PROGRAM = f"{TOP}/out/psh"
# What a round runs more, how many turns that takes, and whether dash does it in one process, so that its instructions are counted.
COMMANDS = [
    ("echo $a $b >/dev/null", 3, True), ("{ :; } >/dev/null", 3, True), ("[ -f f ] && :", 2, True), ("case $a in b|c) ;; ?) :;; esac", 5, True),
    ("f", 2, True), ("eval :", 4, True), (". /dev/null", 2, True), ("exec 3>&1", 2, True), ("command :", 1, True), ("read x </dev/null", 3, True), ("x=$(echo a)", 7, False),
]


def events_of(folder, turns):
    """A file of events with so many turns."""
    return measuring.write_events(f"{folder}/events", turns)


def loop(limit, more="", groups=0, calls=0):
    """The script: a loop of so many rounds, inside so many groups or calls of functions."""
    text = f"{'{ ' * groups}while [ $i -lt {limit} ]; do {more}{'; ' if more else ''}i=$((i+1)); done{'; }' * groups}"
    if calls:
        text = f"g() {{ if [ $1 -gt 1 ]; then g $(($1-1)); else {text}; fi; }}; g {calls}"
    return f"i=0 a=1 b=2; f() {{ :; }}; {text}"


def psh_round(folder, image, turns=2, more="", groups=0, calls=0):
    """The instructions for one round, which takes so many turns."""
    script, first = loop(100_000, more, groups, calls), 20 + 2 * calls
    few, many = (measuring.instructions(folder, [PROGRAM, "-c", script, image, events_of(folder, rounds * turns + first)]) for rounds in (200, 700))
    return (many - few) / 500


def dash_round(folder, more=""):
    """The instructions for one round in dash."""
    few, many = (measuring.instructions(folder, ["dash", "-c", loop(rounds, more)]) for rounds in (100, 300))
    return (many - few) / 200


def memory(folder, image, rounds):
    """The most memory that a run of so many rounds had, in KiB."""
    return measuring.memory([PROGRAM, "-c", loop(1_000_000), image, events_of(folder, rounds * 2)])


def main():
    with tempfile.TemporaryDirectory() as folder:
        image = f"{folder}/image"
        with open(image, "wb") as it:
            it.write(b"psh image 1\nfile /f rw- 0\n\nend\n")
        base, dash = psh_round(folder, image), dash_round(folder)
        print(f"a round: {base:.0f} instructions, in dash {dash:.0f}, {base / dash:.1f} times that")
        inside = psh_round(folder, image, groups=200)
        print(f"the same inside 200 groups: {inside:.0f}, ratio {inside / base:.2f}")
        few, many = memory(folder, image, 1_000), memory(folder, image, 100_000)
        print(f"memory after 1,000 rounds {few} KiB, after 100,000 {many} KiB, ratio {many / few:.2f}")
        for more, turns, is_counted in COMMANDS:
            ours = psh_round(folder, image, turns + 2, more) - base
            print(f"{more}: {ours:.0f} more")
            if is_counted:
                theirs = dash_round(folder, more) - dash
                print(f"  in dash {theirs:.0f}, {ours / theirs:.1f} times that")
        shallow, deep = (psh_round(folder, image, 4, "f", calls=calls) for calls in (1, 900))
        print(f"a round with a call, inside 1 call: {shallow:.0f} instructions, inside 900: {deep:.0f}, ratio {deep / shallow:.2f}")
        print(f"greatest ratio {max(inside / base, many / few, deep / shallow):.2f}")


if len(sys.argv) == 2:
    PROGRAM = os.path.abspath(sys.argv[1])
main()
