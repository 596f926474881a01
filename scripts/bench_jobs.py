#!/usr/bin/env python3
"""Instructions for each job that the built program launches, and how they grow with the jobs that are there.

Runs `while :; do : & wait; done` under valgrind's callgrind: each round launches a job, which stays in the table once it has ended, since
`wait` without operands tells of none. Prints the instructions for one round behind 1,000 jobs and behind 10,000, and the ratio of the two;
then the same of `while :; do : & wait %1; done`, whose jobs go. Then the memory of a run in which 1,000 jobs were told by `jobs`, and of one
with 100,000.

Then the memory of an interactive shell in which 1,000 lines `:&` were typed, whose jobs are told before its prompts, and of one with 100,000.
The events themselves take more than the jobs, since each key is one. So the same events are also run behind the shell's end, and the ratio
is that of the two memories without what the events take there. What the typed lines show on the terminal is in it.

The last line is the greatest of the ratios. Needs valgrind, and psh built (./build), or a path to it as the only word.
"""

import os
import subprocess
import sys
import tempfile

import measuring

TOP = os.path.dirname(os.path.dirname(os.path.abspath(__file__)))
PROGRAM = f"{TOP}/out/psh"
# A round: the condition, the fork, two turns of the process, the words of `wait`, the waiting.
TURNS = 6
# .. and with the words of `jobs`, its redirection and its write.
TOLD_TURNS = 9
# More than a typed line needs: the read, the fork, the line of the number, two turns of the process, the line of the job, the prompt.
TYPED_TURNS = 12
# Prompts and what is told of jobs go to descriptor 2. So they aren't on the terminal, where they would stay.
UNSEEN = "exec 2>/dev/null"
# .. and this ends the shell.
ENDED = "exit"
# Tells the jobs that are left, and the number of the last process.
LEFT = "jobs; echo $!"


def round_behind(folder, image, script, rounds):
    """The instructions for one round behind so many."""

    def until(count):
        events = measuring.write_events(f"{folder}/events", 2 + count * TURNS)
        return measuring.instructions(folder, [PROGRAM, "-c", script, image, events])

    return (until(rounds + 200) - until(rounds)) / 200


def memory_of(folder, image, rounds):
    """The most memory that a run had in which so many jobs were told, in KiB."""
    events = measuring.write_events(f"{folder}/events", 2 + rounds * TOLD_TURNS)
    return measuring.memory([PROGRAM, "-c", "while :; do : & wait; jobs >/dev/null; done", image, events])


def write_typed(folder, first, rounds):
    """Writes events that type a line, then so many jobs, each in a line of its own, and at last what is left of them."""
    path = f"{folder}/events"
    with open(path, "w", encoding="utf-8") as events:
        for line, times in ((first, 1), (":&", rounds), (LEFT, 1)):
            events.write(f"type {line}\nkey 0a\nnext {TYPED_TURNS}\n" * times)
    return path


def check_told(image, events, rounds):
    """Ends where a job wasn't launched, or is left."""
    ran = subprocess.run([PROGRAM, image, events], stdout=subprocess.PIPE, check=True)
    wanted = f"{LEFT}\n{100 + rounds}\n".encode()
    if not ran.stdout.endswith(wanted):
        sys.exit(f"{rounds} typed jobs: the terminal ends with {ran.stdout[-200:]}, and not with {wanted}")


def typed_memory(folder, image, rounds):
    """The most memory of a run in which so many jobs were typed and told, and of one over their events behind the shell's end, in KiB."""
    events = write_typed(folder, UNSEEN, rounds)
    check_told(image, events, rounds)
    told = measuring.memory([PROGRAM, image, events])
    return told, measuring.memory([PROGRAM, image, write_typed(folder, ENDED, rounds)])


def prompted(folder, image):
    """Prints the memory of the jobs that are told at the prompt, and gives the ratio."""
    none = measuring.memory([PROGRAM, image, measuring.write_events(f"{folder}/events", 1)])
    (few, few_events), (many, many_events) = (typed_memory(folder, image, rounds) for rounds in (1_000, 100_000))
    ratio = (many - many_events + none) / (few - few_events + none)
    print(f"memory with 1,000 jobs told at the prompt {few} KiB, with 100,000 {many} KiB")
    print(f"  of their events alone {few_events} and {many_events} KiB, with one event {none} KiB, ratio without the events {ratio:.2f}")
    return ratio


def main():
    with tempfile.TemporaryDirectory() as folder:
        image = f"{folder}/image"
        with open(image, "wb") as it:
            it.write(b"psh image 1\nend\n")
        ratios = []
        for wait in ("wait", "wait %1"):
            script = f"while :; do : & {wait}; done"
            few, many = (round_behind(folder, image, script, rounds) for rounds in (1_000, 10_000))
            ratios.append(many / few)
            print(f"{script}: {few:.0f} instructions behind 1,000 rounds, {many:.0f} behind 10,000, ratio {many / few:.2f}")
        few, many = memory_of(folder, image, 1_000), memory_of(folder, image, 100_000)
        ratios.append(many / few)
        print(f"memory with 1,000 jobs told {few} KiB, with 100,000 {many} KiB, ratio {many / few:.2f}")
        ratios.append(prompted(folder, image))
        print(f"greatest ratio {max(ratios):.2f}")


if len(sys.argv) == 2:
    PROGRAM = os.path.abspath(sys.argv[1])
main()
