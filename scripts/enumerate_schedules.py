#!/usr/bin/env python3
"""Checks psh-schedules against an enumeration of schedules that asks psh alone.

usage: enumerate_schedules.py [PSH [PSH_SCHEDULES]]

The two programs are those of crates/psh/out and crates/psh_schedules/out where they aren't given. For each script below, all lists of
`run K` are tried by psh, depth first, up to the end of the run or so many turns. What they come to (the terminal, each process's status,
the files), and how many of them come to each, has to be what psh-schedules tells with more preemptions than a schedule has turns, and
with at most 0, 1 and 2 where the preemptions of each list are known. The events that psh-schedules gives have to show their outcome in psh.

Which processes can move isn't told by psh. So a script is also run behind the line `(yes >/ticks &)`. The process that this leaves, the
clock, can always move; each of its turns makes the file /ticks 2 bytes longer, and nothing else depends on it. `run K` counts K modulo
the number of those that can move, so from the K by which /ticks grows it follows how many they are, and whether the shell is among them.

How the processes stand is taken to depend only on how many turns each has had. Each list is checked once more with a turn of the clock
before each of its turns. Where one of these goes astray, the script is tried again and psh is asked at each turn.

Prints a line for each script, and at the end how many are right and wrong. Ends with 1 where one is wrong.
"""
import collections
import concurrent.futures
import dataclasses
import os
import re
import subprocess
import sys
import tempfile

import pack_image
import proving

TOP = os.path.dirname(os.path.dirname(os.path.abspath(__file__)))

# The scripts, and how many turns a schedule of one has at most.
MOST_TURNS = 40
SCRIPTS = [
    (": & wait", MOST_TURNS),
    ("echo a & wait", MOST_TURNS),
    ("echo a & echo b", MOST_TURNS),
    (": & : & wait", MOST_TURNS),
    (": & : & exit 3", MOST_TURNS),
    ("exit 3 & exit 4", MOST_TURNS),
    ("x=1; (x=2) & wait; echo $x", MOST_TURNS),
    ("(exit 3) & wait $!; echo $?", MOST_TURNS),
    ("(: & wait; exit 3) & wait $!", MOST_TURNS),
    ("trap 'echo t' EXIT; : & wait", MOST_TURNS),
    ("set -e; false & wait $!; echo no", MOST_TURNS),
    ("echo a >f & echo b >f; wait", MOST_TURNS),
    ("echo a >>f & echo b >>f; wait", MOST_TURNS),
    ("exec 3>f; echo a >&3 & echo b >&3; wait", MOST_TURNS),
    ("false & true & wait; echo $?", MOST_TURNS),
    ("if [ -e f ]; then echo there; fi & >f; wait", MOST_TURNS),
    ("x=$(echo a); echo $x", MOST_TURNS),
    ("x=$(: & wait); echo $?", MOST_TURNS),
    ("! : | :", MOST_TURNS),
    ("false | true; echo $?", MOST_TURNS),
    ("echo a | read x", MOST_TURNS),
    ("echo a | cat", MOST_TURNS),
    ("echo a | head -n 0", MOST_TURNS),
    ("read x </dev/tty & wait", MOST_TURNS),
    ("spin", 12),
    ("spin & exit", 12),
]
IMAGE = pack_image.image_of(pack_image.with_stock(["cat", "head", "spin", "yes"], {b"/in": ("rw-", b"0\n")}))

# The line that makes the clock, and the events of its processes and of the shell before the script begins.
CLOCK = b"(yes >/ticks &)\n"
BEFORE = ["run 0 5", "run 1 3"]
SHELL, CLOCK_PID = 100, 102

# How many preemptions psh-schedules is asked for; the last is more than any schedule has, so `--all` asks for it.
BOUNDS = [0, 1, 2, 1000]

# A run that takes longer than these seconds has failed.
LONGEST = 120

OUTCOME = re.compile(rb"^outcome \d+: (\d+) schedules?, (ended|stuck|cut), (\d+) bytes\n", re.M)
EVENT = re.compile(rb"^(?:run|next) \d+(?: \d+)?$", re.M)


class Astray(Exception):
    """A turn of the clock went to another process."""


@dataclasses.dataclass(frozen=True)
class Shown:
    """What psh writes for a script and events: the terminal's bytes, and the report behind them."""

    terminal: bytes
    report: bytes

    def states(self):
        """How each process stands, by its number."""
        return {int(pid): state for pid, state in re.findall(rb"^process (\d+) (.+)$", self.report.split(b"\npsh image")[0], re.M)}

    def running(self):
        return [pid for pid, state in self.states().items() if state == b"running"]

    def ticks(self):
        """How many turns the clock has had."""
        found = re.search(rb"^file /ticks rw- (\d+)$", self.report, re.M)
        return int(found[1]) // 2 if found else 0


@dataclasses.dataclass(frozen=True)
class Standing:
    """Who can move: how many processes; where the clock would stand among them; their numbers, where these are known."""

    count: int
    place: int
    movers: tuple


@dataclasses.dataclass(frozen=True)
class Path:
    """A list of choices so far, with how the processes stood at each, and what is known of it."""

    choices: tuple = ()
    standings: tuple = ()
    turns: tuple = ()
    last: int = 0
    preemptions: int = 0
    is_known: bool = True

    def events(self):
        return [f"run {choice}" for choice in self.choices]

    def watched(self, with_ticks):
        """The same choices where the clock stands among the processes, each behind a turn of the clock where that is wanted."""
        events = list(BEFORE)
        for choice, at in zip(self.choices, self.standings):
            if with_ticks:
                events.append(f"run {at.place + at.count + 1}")
            events.append(f"run {choice + (choice >= at.place)}")
        return events

    def then(self, standing, choice):
        """This list and one more choice."""
        further = (*self.choices, choice), (*self.standings, standing)
        if not self.is_known or standing.movers is None:
            return Path(*further, is_known=False)
        pid = standing.movers[choice]
        turns = collections.Counter(dict(self.turns))
        turns[pid] += 1
        gave_way = pid != self.last and self.last in standing.movers
        return Path(*further, tuple(sorted(turns.items())), pid, self.preemptions + gave_way)


class Enumeration:
    """All schedules of one script, as psh shows them."""

    def __init__(self, psh, folder, script, most, is_remembered):
        self.psh, self.folder, self.most = psh, folder, most
        self.script = script.encode()
        self.remembered = {} if is_remembered else None
        self.leaves = []

    def shown(self, text, events):
        """What psh shows of a text and events."""
        with tempfile.NamedTemporaryFile(dir=self.folder, suffix=".events") as file:
            file.write("".join(f"{it}\n" for it in events).encode())
            file.flush()
            words = [self.psh, "--report", "-c", text, f"{self.folder}/image", file.name]
            done = subprocess.run(words, stdin=subprocess.DEVNULL, stdout=subprocess.PIPE, stderr=subprocess.DEVNULL, timeout=LONGEST, check=True)
        place = done.stdout.index(b"\nprocess 100 ")
        return Shown(done.stdout[:place], done.stdout[place + 1 :])

    def with_clock(self, events):
        return self.shown(CLOCK + self.script, events)

    def asked(self, path):
        """Who can move behind a list, by what the clock shows; none where the shell has ended."""
        events, before = path.watched(False), len(path.choices)
        first = self.with_clock([*events, "run 0"])
        if SHELL not in first.running() and SHELL not in self.with_clock(events).running():
            return None
        place = 0 if first.ticks() else 1
        for total in range(1 + place, len(first.states()) + 2):
            shown = self.with_clock([*events, f"run {place + total}"])
            if shown.ticks():
                movers = [pid - 2 if pid > SHELL else pid for pid in shown.running() if pid != CLOCK_PID and (pid != SHELL or place)]
                return Standing(total - 1, place, tuple(movers) if len(movers) == total - 1 else None)
        raise AssertionError(f"the clock doesn't move behind {before} turns: {events}")

    def standing(self, path):
        """Who can move behind a list: as it was for another one in which each process had as many turns, if that is to be remembered."""
        if self.remembered is None or not path.is_known:
            return self.asked(path)
        if path.turns not in self.remembered:
            self.remembered[path.turns] = self.asked(path)
        return self.remembered[path.turns]

    def add(self, path, ending):
        """Takes a list that is at its end, and checks that the clock stood where it was thought to stand."""
        shown = self.shown(self.script, path.events())
        always = [f"run {it}" for it in range(4)] if ending == "stuck" else []
        watched = self.with_clock([*path.watched(True), *always])
        states = {pid - 2 if pid > SHELL else pid: state for pid, state in watched.states().items() if pid not in (SHELL + 1, CLOCK_PID)}
        is_same = (watched.terminal, states) == (shown.terminal, shown.states())
        has_ended = SHELL not in shown.running()
        if watched.ticks() != len(path.choices) + len(always) or not is_same or has_ended != (ending == "ended"):
            raise Astray(path.events())
        self.leaves.append((path, ending, shown))

    def tried(self):
        """All lists to their ends, depth first."""
        ahead = [Path()]
        while ahead:
            path = ahead.pop()
            standing = self.standing(path)
            if standing is None:
                self.add(path, "ended")
            elif standing.count == 0:
                self.add(path, "stuck")
            elif len(path.choices) == self.most:
                self.add(path, "cut")
            else:
                ahead += [path.then(standing, choice) for choice in reversed(range(standing.count))]
        return self

    def outcomes(self, bound):
        """The outcomes of the lists with so many preemptions at most, and how many come to each; none where that isn't known."""
        if bound < self.most and not all(path.is_known for path, _, _ in self.leaves):
            return None
        return collections.Counter((ending, shown) for path, ending, shown in self.leaves if bound >= self.most or path.preemptions <= bound)


def enumerated(psh, folder, script, most):
    """The schedules of a script."""
    try:
        return Enumeration(psh, folder, script, most, True).tried()
    except Astray:
        return Enumeration(psh, folder, script, most, False).tried()


def told_by(schedules, folder, script, most, bound):
    """What psh-schedules tells: its exit status, and of each outcome its ending, its terminal, its count and events."""
    reach = ["--all"] if bound >= most else ["--preemptions", str(bound)]
    words = [schedules, *reach, "--turns", str(most), "-c", script, f"{folder}/image"]
    done = subprocess.run(words, stdin=subprocess.DEVNULL, stdout=subprocess.PIPE, stderr=subprocess.DEVNULL, timeout=LONGEST)
    found, place = [], 0
    while head := OUTCOME.search(done.stdout, place):
        place = head.end() + int(head[3])
        after = OUTCOME.search(done.stdout, place)
        events = EVENT.findall(done.stdout, place, after.start() if after else len(done.stdout))
        found.append((head[2].decode(), done.stdout[head.end() : place], int(head[1]), [it.decode() for it in events]))
    return done.returncode, found


def faults_of(schedules, listed, script, bound):
    """What differs between the two for a bound, as lines."""
    wanted = listed.outcomes(bound)
    if wanted is None:
        return []
    status, found = told_by(schedules, listed.folder, script, listed.most, bound)
    summary = sorted((ending, shown.terminal, count) for (ending, shown), count in wanted.items())
    told = sorted(it[:3] for it in found)
    faults = [] if told == summary else [f"  with {bound} preemptions it tells {told}, and psh comes to {summary}"]
    is_one = len(wanted) == 1 and all(ending != "cut" for ending, _ in wanted)
    if status != (0 if is_one else 1):
        faults.append(f"  with {bound} preemptions it ends with {status}")
    for ending, terminal, _, events in found:
        if events:
            shown = listed.shown(listed.script, events)
            if shown.terminal != terminal or (ending, shown) not in wanted:
                faults.append(f"  with {bound} preemptions its events {events} come to {shown}")
    return faults


def judged(psh, schedules, script, most):
    """Whether the two agree on a script, and the lines that say so."""
    with tempfile.TemporaryDirectory(prefix="schedules-") as folder:
        with open(f"{folder}/image", "wb") as file:
            file.write(IMAGE)
        listed = enumerated(psh, folder, script, most)
        faults = [line for bound in BOUNDS for line in faults_of(schedules, listed, script, bound)]
    is_whole = listed.outcomes(0) is not None
    bounds = "with each bound" if is_whole else "without a bound"
    how = "" if listed.remembered is not None else ", asked at each turn"
    head = f"{script}: {len(listed.leaves)} schedules, {len(listed.outcomes(BOUNDS[-1]))} outcomes, {bounds}{how}: {'wrong' if faults else 'right'}"
    return not faults, [head, *faults]


def main(psh=f"{TOP}/crates/psh/out/psh", schedules=f"{TOP}/crates/psh_schedules/out/psh_schedules"):
    programs = [os.path.abspath(it) for it in (psh, schedules)]
    for program in programs:
        if not os.access(program, os.X_OK):
            sys.exit(f"{program}: no program")
    wrong = 0
    with concurrent.futures.ThreadPoolExecutor(proving.processors()) as pool:
        for is_right, lines in pool.map(lambda it: judged(*programs, *it), SCRIPTS):
            wrong += not is_right
            print("\n".join(lines), flush=True)
    print(f"schedules: {len(SCRIPTS) - wrong} right, {wrong} wrong")
    return 1 if wrong else 0


if __name__ == "__main__":
    if len(sys.argv) > 3 or any(it.startswith("-") for it in sys.argv[1:]):
        sys.exit(__doc__)
    sys.exit(main(*sys.argv[1:]))
