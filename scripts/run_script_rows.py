#!/usr/bin/env python3
"""Runs scripts on psh as rows of files say, and tells which come to something else.

usage: run_script_rows.py PSH TIMELINE [FILE ..]

PSH and TIMELINE are the programs psh and psh-timeline; with `-` for the second, rows that need it are left out. The files are those of
crates/psh/rows-scripts where none is given; the kinds of rows are told at the head of `rows` there. The scripts of a file run on the image
beside it that has its name and `.image`, or else on `standard.image`. How processes stand, and the terminal's bytes, are what psh --report
writes; which process took a turn is what psh-timeline --text writes. Rows are judged side by side, as many as there are processors.

Ends with the number of rows that came to what they should, and of those that didn't, and with 1 where there is one of these.
"""
import dataclasses
import multiprocessing
import os
import re
import subprocess
import sys
import tempfile

import proving
from run_psh_rows import text_of

TOP = os.path.dirname(os.path.dirname(os.path.abspath(__file__)))
FOLDER = f"{TOP}/crates/psh/rows-scripts"

# The process of the first shell.
FIRST = 100

# The turns, going round, in which each script ends, whatever turns came before.
MANY = 20_000

# The turns after which a row `state` looks at a process.
SOME = 1000

# Places of the processes that take a turn, one after another; a byte each. Behind them turns go round.
ORDERS = [
    b"",
    b"213000201003301030010301012310210120001332332211102323200312",
    b"011001111100110011111011001001001110011101111100000000101100",
    b"222112222212211112112111112111212222112222211122211121121221",
    b"000000000000000000000000000000000000000000000000000000000000",
    b"333333333333333333333333333333333333333333333333333333333333",
]

# How a process stands that hasn't ended, in place of what the report says of it.
LIVES = b"running or stopped"

# The line of a process in a report, and what it is of the first shell's process.
PROCESS = re.compile(rb"process ([0-9]+) (.+)")
FIRST_LINE = b"process %d " % FIRST

# A run that takes longer than these seconds has failed.
LONGEST = 120


class NoRow(Exception):
    """A line is no row."""


@dataclasses.dataclass(frozen=True)
class Look:
    """What has to be seen after events: how a process stands, and the terminal's bytes. What is None may be anything."""

    events: bytes
    state: bytes | None
    terminal: bytes | None
    pid: int = FIRST

    def is_met(self, state, terminal):
        """Whether this is seen."""
        if self.terminal is not None and terminal != self.terminal:
            return False
        if self.state == LIVES:
            return state == b"running" or state.startswith(b"stopped ")
        return self.state is None or state == self.state


@dataclasses.dataclass(frozen=True)
class Script:
    """What a first shell runs, as words of the command line before the image and behind the events."""

    options: tuple
    operands: tuple = ()


@dataclasses.dataclass(frozen=True)
class Row:
    """A script, with what has to be seen of its runs, and which processes take the turns, going round, if that is told."""

    path: str
    line: int
    image: str
    script: Script
    looks: tuple
    pids: bytes | None


def number_of(digits):
    """A number."""
    if not re.fullmatch(rb"[0-9]+", digits):
        raise NoRow
    return int(digits)


def times(event, count):
    """An event so many times, as lines of a file of events, which count from 1."""
    return b"%s %d\n" % (event, count) if count else b""


def going_round(count):
    """So many turns of one process after another."""
    return times(b"next", count)


def turns_by(order):
    """The turns of the processes at the places that an order tells."""
    return b"".join(times(b"run %d" % place, 1) for place in order)


def events_of(field):
    """The events of a field: words `next` or a place, with `*` and a number behind those that happen more than once."""
    lines = []
    for word in field.split(b" "):
        event, star, count = word.partition(b"*")
        event = event if event == b"next" else b"run %d" % number_of(event)
        lines.append(times(event, number_of(count) if star else 1))
    return b"".join(lines)


def text(commands):
    """A shell that runs a text."""
    return Script(("-c", commands))


def ends_at(order, turns, status, terminal):
    """The first shell ends in this turn behind the turns of an order, and not before."""
    before, turns = turns_by(order), number_of(turns)
    looks = [Look(before + going_round(turns), b"exited " + status, terminal)]
    if turns:
        looks.append(Look(before + going_round(turns - 1), LIVES, None))
    return looks


def ends_in(orders, status, terminal):
    """The first shell ends so in each of these orders of turns."""
    return [Look(turns_by(order) + going_round(MANY), b"exited " + status, terminal) for order in orders]


def end(turns, status, terminal, commands):
    return text(commands), ends_at(b"", turns, status, terminal) + ends_in(ORDERS[1:], status, terminal)


def comes(status, terminal, commands):
    return text(commands), ends_in(ORDERS, status, terminal)


def start(letters, status, terminal, commands):
    return Script(("--set", letters, "-c", commands)), ends_in(ORDERS, status, terminal)


def race(turns, status, terminal, commands):
    return text(commands), ends_at(b"", turns, status, terminal)


def turns_of(_pids, status, terminal, commands):
    return text(commands), ends_in(ORDERS[:1], status, terminal)


def file(turns, status, terminal, path):
    return Script((), (path,)), ends_at(b"", turns, status, terminal)


def order(places, between, turns, status, terminal, commands):
    return text(commands), [Look(turns_by(places), None, between)] + ends_at(places, turns, status, terminal)


def at(turns, terminal, commands):
    return text(commands), [Look(going_round(number_of(turns)), b"running", terminal)]


def state(pid, stands_so, commands):
    return text(commands), [Look(going_round(SOME), stands_so, None, number_of(pid))]


def stands(events, pid, stands_so, terminal, commands):
    return text(commands), [Look(events_of(events), stands_so, terminal, number_of(pid))]


# The kinds of rows: how many fields each has, and what they say of which script.
KINDS = {
    b"end": (4, end),
    b"comes": (3, comes),
    b"start": (4, start),
    b"race": (4, race),
    b"turns": (4, turns_of),
    b"file": (4, file),
    b"order": (6, order),
    b"at": (3, at),
    b"state": (3, state),
    b"stands": (5, stands),
}


def row_of(path, number, line, image):
    """The row of a line."""
    kind, *fields = [text_of(field) for field in line.split(b"\t")]
    count, meaning = KINDS.get(kind, (None, None))
    try:
        if count != len(fields):
            raise NoRow
        script, looks = meaning(*fields)
    except NoRow:
        sys.exit(f"{path}: line {number} is no row")
    return Row(path, number, image, script, tuple(looks), fields[0] if kind == b"turns" else None)


def read_rows(path):
    """The rows of a file."""
    image = f"{path}.image"
    if not os.path.isfile(image):
        image = f"{os.path.dirname(path)}/standard.image"
    with open(path, "rb") as it:
        lines = it.read().split(b"\n")
    return [row_of(path, number, line, image) for number, line in enumerate(lines, 1) if line and not line.startswith(b"#")]


class Judge:
    """What runs rows on the two programs. The files of events are in a folder, where each stands once."""

    def __init__(self, psh, timeline, folder, rows):
        self.psh, self.timeline, self.paths = psh, timeline, {}
        self.put(folder, going_round(MANY))
        for row in rows:
            for look in row.looks:
                self.put(folder, look.events)

    def put(self, folder, events):
        """Writes events into a file, if there is none with them."""
        if events not in self.paths:
            self.paths[events] = f"{folder}/{len(self.paths)}"
            with open(self.paths[events], "wb") as it:
                it.write(events)

    def run(self, program, option, row, events):
        """What a program writes for the script of a row: its output, or None, and why there is none."""
        words = [program, option, *row.script.options, row.image, self.paths[events], *row.script.operands]
        try:
            done = subprocess.run(words, stdin=subprocess.DEVNULL, stdout=subprocess.PIPE, stderr=subprocess.PIPE, timeout=LONGEST, check=False)
        except subprocess.TimeoutExpired:
            return None, "no end"
        return (done.stdout, "") if done.returncode == 0 else (None, f"status {done.returncode} and {done.stderr!r}")

    def fault_of_look(self, row, look):
        """What psh comes to in place of what has to be seen, or None."""
        out, fault = self.run(self.psh, "--report", row, look.events)
        if out is None:
            return fault
        terminal, *reports = out.split(b"\n" + FIRST_LINE)
        if len(reports) != 1:
            return f"a report that can't be told from the terminal: {out!r}"
        states = states_of(FIRST_LINE + reports[0])
        found = states.get(look.pid, b"none")
        return None if look.is_met(found, terminal) else f"{found.decode()} of {look.pid}, terminal {terminal!r}"

    def fault_of_turns(self, row):
        """Which processes take the turns in place of those that should, or None."""
        out, fault = self.run(self.timeline, "--text", row, going_round(MANY))
        if out is None:
            return fault
        pids = b" ".join(line.split(b"\t")[1] for line in out.split(b"\n") if line)
        return None if pids == row.pids else f"turns {pids.decode()}"

    def __call__(self, row):
        """What a row comes to in place of what it should, or None."""
        for look in row.looks:
            fault = self.fault_of_look(row, look)
            if fault:
                return f"after {told(look.events)} came to {fault}"
        fault = self.fault_of_turns(row) if row.pids is not None else None
        return fault and f"came to {fault}"


def states_of(report):
    """How each process stands, by its number, as the first lines of a report say."""
    states = {}
    for line in report.split(b"\n"):
        found = PROCESS.fullmatch(line)
        if not found:
            break
        states[int(found[1])] = found[2]
    return states


def told(events):
    """Events on one line; of many the first ones and the last one."""
    lines = events.decode().split("\n")[:-1] or ["no event"]
    return ", ".join(lines if len(lines) <= 8 else [*lines[:6], "..", lines[-1]])


def judge_rows(judge, rows):
    """Judges rows side by side, tells which fail, and gives how many of each file do."""
    failed = {row.path: 0 for row in rows}
    with multiprocessing.Pool(proving.processors()) as pool:
        for row, fault in zip(rows, pool.imap(judge, rows, chunksize=4)):
            if fault:
                failed[row.path] += 1
                print(f"{row.path}: line {row.line} {fault}", flush=True)
    return failed


def main(psh, timeline, paths):
    for program in (psh, timeline):
        if program != "-" and not os.access(program, os.X_OK):
            sys.exit(f"{program}: no program")
    paths = paths or sorted(f"{FOLDER}/{name}" for name in os.listdir(FOLDER) if not name.endswith(".image"))
    every = [row for path in paths for row in read_rows(path)]
    rows = [row for row in every if row.pids is None or timeline != "-"]
    if len(rows) < len(every):
        print(f"left out: {len(every) - len(rows)} rows that need psh-timeline")
    with tempfile.TemporaryDirectory(prefix="psh-rows-") as folder:
        failed = judge_rows(Judge(os.path.abspath(psh), os.path.abspath(timeline), folder, rows), rows)
    for path, count in failed.items():
        print(f"{os.path.basename(path)}: {sum(row.path == path for row in rows)} rows, {count} wrong")
    wrong = sum(failed.values())
    print(f"psh: {len(rows) - wrong} passed, {wrong} failed")
    return 1 if wrong else 0


if __name__ == "__main__":
    if len(sys.argv) < 3:
        sys.exit(__doc__)
    sys.exit(main(sys.argv[1], sys.argv[2], sys.argv[3:]))
