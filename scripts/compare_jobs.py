#!/usr/bin/env python3
"""Types sessions into psh and into real shells, with stops and continues, and shows where psh does something else than all of them.

usage: compare_jobs.py PROGRAM [NUMBER..]
       compare_jobs.py --without-psh [NUMBER..]

PROGRAM is psh as it was built; the sessions are those of SESSIONS and DEPARTURES, or those with the numbers given. Each is
typed into dash, bash and mksh, which run with job control at a terminal of their own, and into psh. After each line or key one
waits until all processes of the session sleep, are stopped or have ended and nothing more is written, so no result depends on
time; psh gets turns until then.

Compared is what is written, line by line, without what a shell words as it likes: prompts, the echo of keys, empty lines, texts
of messages, numbers of processes, the order of jobs that are listed at once, and of a job's line all but its number, its mark and
the kind of its state. What is told of jobs (`told`) and all else but messages (`echoed`) are compared each by itself, since it is a
matter of time whether a job has changed when a prompt comes. Where the three real shells agree in one of these, psh has to agree
with them, but for DEPARTURES. Where they don't, it is listed how each of them does it. Ends with 1 where psh stands against all
three.
"""
import concurrent.futures
import functools
import os
import pty
import re
import select
import shutil
import signal
import subprocess
import sys
import tempfile
import termios
import time

SHELLS = {
    "dash": ["dash", "-i"],
    "bash": ["bash", "--norc", "--noprofile", "--noediting", "-i"],
    "mksh": ["mksh", "+o", "emacs", "+o", "vi", "-i"],
}

# Programs of psh's stock, and what stands for those that a real system doesn't have.
STOCK = ["cat", "count", "echo", "false", "having", "head", "readstop", "spin", "true", "yes"]
STAND_IN = {
    "count": 'cat | wc -c | tr -d " "\n',
    "having": 'exec grep -F -- "$1"\n',
    "readstop": 'IFS= read -r line\nkill -s STOP $$\nprintf "%s\\n" "$line"\n',
    "spin": "exec sleep 600\n",
}
FILES = {"in": "a\nbb\nccc\n", "long": "0123456789\n" * 300}

# Keys as they stand in sessions. A line stands for itself and a newline, one after `+` has none.
KEYS = {"^C": 0x03, "^\\": 0x1C, "^Z": 0x1A, "^D": 0x04, "^?": 0x7F}

# Nothing more is written if nothing was for this long (in seconds), while no process runs; none of them is waited for longer.
QUIET = 0.12
LONGEST = 10.0

# The turns after each line or key of psh.
TURNS = 600

SESSIONS = [
    # A program is suspended and continued.
    ["cat", "^Z", "echo $?"],
    ["cat", "^Z", "jobs"],
    ["cat", "^Z", "fg", "ab", "^D", "echo $?"],
    ["cat", "^Z", "fg", "^C", "echo $?"],
    ["cat", "^Z", "fg", "^Z", "jobs"],
    ["cat", "^Z", "bg", "echo a", "jobs"],
    ["spin", "^Z", "bg", "jobs"],
    ["spin", "^Z", "bg", "kill %1", "echo a", "jobs"],
    ["spin", "^Z", "bg", "fg", "^C", "echo $?"],
    ["cat", "^Z", "kill -s CONT %1", "echo a", "jobs"],
    ["cat", "^Z", "kill -s KILL %1", "echo a", "jobs"],
    ["cat", "^Z", "kill %1", "kill -s CONT %1", "echo a", "jobs"],
    ["cat", "a", "^Z", "fg", "b", "^D", "echo $?"],
    ["readstop", "ab", "echo $?", "fg", "echo $?"],
    ["readstop", "ab", "jobs", "bg", "echo a", "jobs"],
    # Pipelines.
    ["cat | cat", "^Z", "echo $?"],
    ["cat | cat", "^Z", "fg", "ab", "^D", "echo $?"],
    ["cat | cat", "a", "^Z", "fg", "b", "^Z", "fg", "c", "^D", "echo $?"],
    ["cat | cat", "^C", "echo $?"],
    ["cat | cat", "^\\", "echo $?"],
    ["cat | cat", "^D", "echo $?"],
    ["cat | cat | cat", "^Z", "jobs", "bg", "echo a", "jobs"],
    ["cat <in | readstop", "fg", "echo $?"],
    ["cat <in | readstop | count >out", "^Z", "cat <out", "fg", "echo $?", "cat <out"],
    ["cat <long | readstop | count >out", "^Z", "fg", "echo $?", "cat <out"],
    ["readstop | head -n 1", "x", "^Z", "fg", "echo $?"],
    ["! cat", "^C", "echo $?"],
    ["(cat; echo on)", "^Z", "fg", "^D", "echo $?"],
    ["(cat; echo on)", "^C", "echo $?"],
    ["(exit 3) | cat", "echo $?"],
    ["f() { cat; }", "f", "^Z", "fg", "a", "^D", "echo $?"],
    # Background processes.
    ["cat &", "echo a", "jobs"],
    ["cat &", "echo a", "fg", "b", "^D", "echo $?"],
    ["cat &", "echo a", "fg", "^C", "jobs"],
    ["cat </dev/null &", "echo a", "jobs"],
    ["spin &", "jobs", "kill $!", "echo a", "jobs"],
    ["spin &", "kill -s STOP $!", "echo a", "jobs", "kill -s CONT $!", "jobs"],
    ["spin &", "fg", "^Z", "jobs", "bg", "jobs"],
    ["spin & spin & spin &", "jobs", "kill %2", "echo a", "jobs"],
    ["spin & spin &", "fg %1", "^Z", "jobs", "fg %2", "^C", "jobs"],
    ["(exit 3) &", "echo a", "jobs"],
    ["(exit 3) & wait $!", "echo $?"],
    ["spin & kill -s KILL $!; wait $!", "echo $?"],
    ["spin &", "kill -s TERM %1; wait %1", "echo $?"],
    ["cat | cat &", "echo a", "fg", "b", "^D", "echo $?"],
    ["(cat; echo $?) &", "echo a", "fg", "b", "^D", "jobs"],
    ["readstop &", "echo a", "fg", "b", "fg", "echo $?"],
    ["(trap '' TTIN; cat; echo $?) &", "echo a"],
    # Several jobs.
    ["cat", "^Z", "spin &", "jobs"],
    ["cat", "^Z", "cat", "^Z", "jobs"],
    ["cat", "^Z", "cat", "^Z", "fg %1", "^D", "jobs"],
    ["cat", "^Z", "readstop", "a", "fg %cat", "^D", "jobs"],
    ["cat", "^Z", "spin", "^Z", "kill -s KILL %1", "echo a", "jobs"],
    ["cat", "^Z", "spin", "^Z", "fg %-", "^Z", "jobs"],
    ["cat", "^Z", "spin", "^Z", "bg %2", "jobs"],
    ["spin &", "cat", "^Z", "jobs", "fg", "^D", "jobs"],
    ["true & true & true &", "echo a", "jobs"],
    # INT, at each kind of place.
    ["^C", "echo $?"],
    ["(exit 3)", "^C", "echo $?"],
    ["+echo a", "^C", "echo b"],
    ["cat", "^C", "echo $?"],
    ["cat; echo no", "^C", "echo $?"],
    ["cat || echo no", "^C", "echo $?"],
    ["if true", "^C", "echo a"],
    ["echo 'a", "^C", "echo b"],
    ["cat <<E", "a", "^C", "echo b"],
    ["while :; do :; done", "^C", "echo $?"],
    ["while :; do :; done; echo no", "^C", "echo $?"],
    ["while cat; do :; done; echo no", "^C", "echo $?"],
    ["for i in a b; do cat; echo $i; done", "^C", "echo $?"],
    ["read x; echo no", "^C", "echo $?"],
    ["read x; echo no", "+ab", "^C", "echo $?[$x]"],
    ["spin & wait; echo no", "^C", "echo $?"],
    ["spin & wait $!; echo no", "^C", "echo $?"],
    ["x=$(cat); echo no", "^C", "echo $?"],
    ["{ cat; echo no; } >out", "^C", "echo $?", "cat <out"],
    ["f() { cat; echo no; }", "f", "^C", "echo $?"],
    ["eval 'cat; echo no'", "^C", "echo $?"],
    ["cat | (cat; echo no); echo no", "^C", "echo $?"],
    ["set +m", "cat", "^C", "echo a"],
    ["set +m", "cat", "^Z", "a", "^D", "echo $?"],
    # Traps.
    ["trap 'echo t' INT", "^C", "echo a"],
    ["trap 'echo t' INT", "(exit 3)", "^C", "echo $?"],
    ["trap 'echo t' INT", "while :; do :; done", "^C", "^C", "^\\", "trap - INT", "^C", "echo a"],
    ["trap 'echo t; break' INT", "while :; do :; done; echo a", "^C", "echo b"],
    ["trap 'echo t' INT", "spin & wait; echo $?", "^C"],
    ["trap 'echo t' INT", "read x; echo $x", "+ab", "^C", "cd", "echo a"],
    ["trap 'echo t' INT", "cat", "^C", "echo $?"],
    ["trap '' INT", "^C", "cat", "^C", "a", "^D", "echo $?"],
    ["trap 'echo t' USR1", "kill -s USR1 $$", "echo a"],
    ["trap 'echo t' USR1", "(kill -s USR1 $$; echo a); echo b"],
    ["trap 'echo t' TERM", "kill $$; echo a"],
    ["trap 'echo t' CHLD", "cat", "^D", "echo a"],
    ["trap 'echo t' TSTP", "^Z", "echo a"],
    ["trap 'echo e' EXIT", "exit 3"],
    ["trap 'echo e' EXIT", "^D"],
    # Signals that an interactive shell ignores.
    ["kill $$; echo $?"],
    ["kill -s QUIT $$; echo $?"],
    ["kill -s TSTP $$; echo $?"],
    ["kill -s TTIN $$; kill -s TTOU $$; echo $?"],
    ["^\\", "echo a"],
    ["^Z", "echo a"],
    ["kill 0; echo $?"],
    # Faults: the shell goes on.
    ["fi", "echo $?"],
    ["fi; echo no", "echo a"],
    ["echo a; )", "echo b"],
    ["echo ${y?m}; echo no", "echo a"],
    ["echo ${y?m}", "echo $?"],
    ["readonly x=1", "x=2; echo no", "echo $x"],
    ["readonly x=1", "x=2", "echo $?"],
    ["echo $((1/0)); echo no", "echo a"],
    ["set -u", "echo $y; echo no", "echo a"],
    [": </none/none; echo no", "echo a"],
    ["echo a </none/none; echo $?"],
    ["nosuch; echo $?"],
    ["if true", "fi", "echo a"],
    ["eval 'fi'; echo no", "echo a"],
    ["shift x; echo no", "echo a"],
    # What is typed.
    ["echo 'a", "b'"],
    ["if true", "then", "echo a", "fi"],
    ["cat <<E", "a b", "E"],
    ["while read x; do", "echo $x; done", "a", "^D", "echo $?"],
    ["echo a |", "cat"],
    ["", "  ", "# a", "echo b"],
    ["+ecjo", "^?", "^?", "^?", "+ho a", "", "echo b"],
    ["+echo a", "^D", "+ b", ""],
    ["+echo a", "^D", "^D", "echo b"],
    ["if true", "^D", "echo a"],
    ["echo 'a", "^D", "echo b"],
    ["read x", "+ab", "^D", "^D", "echo $? $x"],
    ["cat", "+ab", "^D", "^D", "echo $?"],
    ["PS1='% '", "echo a", "PS1=", "echo b"],
    ["set -e", "false", "echo no"],
    ["exit 3", "echo no"],
    ["(exit 5)", "exit", "echo no"],
    # Waiting.
    ["wait; echo $?"],
    ["spin &", "wait %2; echo $?", "echo a"],
    ["cat", "^Z", "wait; echo $?"],
    ["cat </dev/null & wait; echo $?"],
    ["false & wait $!; echo $?"],
    ["kill %3; echo $?"],
    ["fg; echo $?", "bg; echo $?"],
    ["fg %2; echo $?"],
    ["set +m", "fg; echo $?"],
    ["trap 'cat' INT", "^C", "a", "^D", "echo b"],
    ["trap 'exit 3' INT", "^C", "echo no"],
    ["trap 'echo t' INT", "if true", "^C", "then echo a", "fi"],
    ["exec cat", "a", "^Z", "b", "^D"],
    ["exec nosuch", "echo a"],
    ["exec nosuch; echo no", "echo a"],
    # Further stops and continues, and what is in the files afterwards.
    ["spin | spin &", "kill -s STOP %1", "echo a", "bg", "echo b", "kill -s TERM %1", "echo c"],
    ["cat | cat", "^Z", "kill -s CONT %1", "echo a", "fg", "b", "^D", "echo $?"],
    ["cat | readstop", "ab", "^Z", "fg", "^D", "echo $?"],
    ["(readstop; echo on)", "ab", "^Z", "fg", "echo $?"],
    ["spin | cat", "^Z", "bg", "fg", "^Z", "fg", "^C", "echo $?"],
    ["cat", "a", "^Z", "bg", "echo c", "fg", "b", "^Z", "fg", "^D", "echo $?"],
    ["cat &", "echo c", "cat &", "echo d", "fg %1", "a", "^Z", "fg %2", "b", "^D", "fg", "^D", "jobs"],
    ["readstop", "a", "readstop", "b", "fg %1", "fg %2", "jobs"],
    ["readstop", "a", "bg %1", "echo b", "jobs"],
    ["cat >out", "ab", "^Z", "fg", "cd", "^D", "cat <out"],
    ["cat | cat >out", "ab", "^Z", "cat <out", "fg", "^D", "cat <out"],
    ["cat | cat >out", "ab", "^Z", "fg", "cd", "^Z", "fg", "^D", "cat <out"],
    ["cat <long | readstop | cat | count >out", "^Z", "fg", "cat <out"],
    ["cat | head -n 1 | cat >out", "^Z", "fg", "ab", "cat <out"],
    ["cat | count >out", "ab", "^Z", "fg", "c", "^D", "cat <out"],
    ["spin", "^Z", "spin", "^Z", "bg %1 %2", "jobs", "kill %1 %2", "echo a"],
    ["spin", "^Z", "kill -s CONT %1", "jobs", "kill -s STOP %1", "echo a", "kill -s KILL %1", "echo b"],
    ["f() { cat; echo $?; }", "f", "^Z", "echo a", "fg", "^D"],
    ["cat && echo no", "^Z", "jobs"],
    ["cat || echo or", "^Z", "jobs"],
    ["cat; echo b", "^Z", "jobs"],
    ["(cat); echo b", "^Z", "jobs"],
    ["! cat", "^Z", "jobs"],
    ["while cat; do :; done; echo e", "^Z", "jobs"],
    ["if cat; then echo a; else echo b; fi", "^Z", "jobs"],
    ["for i in a b; do cat; done", "^Z", "^Z", "jobs"],
    ["eval 'cat; echo b'", "^Z", "jobs"],
    ["{ cat; echo b; } | cat", "a", "^Z", "fg", "^D", "echo $?"],
    ["cat & spin", "^Z", "jobs", "fg %1", "^D", "jobs", "kill -s KILL %2", "echo a"],
    ["x=$(cat)", "^Z", "ab", "^D", "echo $x"],
    ["x=$(cat | cat)", "ab", "^Z", "cd", "^D", "echo $x"],
    ["read x", "^Z", "ab", "echo $x"],
    ["spin & wait", "^Z", "^C", "jobs"],
    ["kill -s TSTP 0; echo a"],
    ["cat", "^Z", "kill -s STOP %1; kill -s STOP %1", "jobs"],
]

# Sessions in which psh departs from the three shells by a rule of its own, and that rule.
DEPARTURES = [
    ("an interactive shell tells of jobs also while -m is off", ["set +m", "spin &", "kill $!; wait $!; echo $?"]),
    ("an interactive shell tells of jobs also while -m is off", ["set +m", "(exit 3) &", "echo a", "jobs"]),
    ("an interactive shell tells of jobs also while -m is off", ["set +m", "spin &", "jobs", "kill $!", "echo a", "echo b"]),
    ("an interactive shell tells of jobs also while -m is off", ["cat", "^Z", "set +m", "jobs", "kill -s KILL %1", "echo a", "echo b"]),
    ("a job that goes on is told as Running, but behind bg and fg", ["spin | spin &", "kill -s STOP %1", "echo a", "kill -s CONT %1", "echo b"]),
    ("wait goes on while a job is stopped", ["cat & wait; echo no", "^C", "echo $?"]),
    ("wait goes on while a job is stopped", ["cat & wait", "^C", "fg", "a", "^D", "echo $?"]),
    ("a shell ends also while a job is stopped", ["cat; exit 4", "^Z", "echo no"]),
    ("a shell ends also while a job is stopped", ["cat", "^Z", "exit 4", "echo no"]),
    ("a shell ends also while a job is stopped", ["cat", "^Z", "^D", "echo no"]),
]

ALL = [(None, steps) for steps in SESSIONS] + DEPARTURES

# The ways to compare what was written.
KINDS = ["told", "echoed"]

JOB_STATES = [
    (r"Running", "Running"),
    (r"Stopped ?\([^)]*\)|Stopped|Suspended(?: \([^)]*\))?", "Stopped"),
    (r"Done ?\((\d+)\)|Exit (\d+)", "Done(N)"),
    (r"Done", "Done"),
    (r"(?:Terminated|Killed|Hangup|Interrupt|Quit|User defined signal 1)(?: ?\([^)]*\))?", "Ended"),
]
ENDS = re.compile(r"(Terminated|Killed|Hangup|Interrupt|Quit|User defined signal [12]|Stopped|Alarm clock)( \(core dumped\)| \(signal\))? *")
# (mksh has a line for each command of a pipeline)
STAGE = re.compile(r" +(Running|Stopped|Done|Killed|Terminated)")


def told(line):
    """A line that tells of a job, without what each shell words as it likes; None for another line."""
    job = re.fullmatch(r"\[(\d+)\] ?([+-]?) *(.*)", line)
    if not job:
        return None
    number, mark, rest = job.groups()
    if re.fullmatch(r"[\d ]+", rest):
        return f"[{number}] PID"
    for pattern, word in JOB_STATES:
        found = re.match(rf"(?:\d+ +)?(?:{pattern})(?: +|$)", rest)
        if found:
            status = next((it for it in found.groups() if it), None)
            return f"[{number}]{mark} {word.replace('N', status) if status else word}"
    return f"[{number}] TEXT"


def lines_of(name, step, written):
    """What a step wrote, as pairs of a kind (told, fault, text or echoed) and a line."""
    text = re.sub(rb"\r|\^[CZ\\]", b"", written).decode("latin-1")
    found, jobs = [], []
    for line in text.split("\n"):
        line = re.sub(r"^(?:[$>%] )+", "", line).rstrip()
        if not line or line in ("exit", "$", ">", "%") or ENDS.fullmatch(line) or STAGE.match(line):
            continue
        job = told(line)
        if job:
            jobs.append(("told", job))
            continue
        found += sorted(jobs)
        jobs = []
        if re.match(rf"(?:[EW]: )?(?:\S*/)?(?:{name}|cat): ", line) or re.search(r"stopped jobs|line \d+: |There are ", line):
            found.append(("fault", "message"))
        elif step.startswith("fg") and not found:
            found.append(("text", "TEXT"))
        else:
            found.append(("echoed", line))
    return found + sorted(jobs)


def view(steps, kind):
    """What is compared of a session: what was written, but for numbers of processes and texts of jobs."""
    return [line for found in steps for what, line in found if what == kind and not line.endswith(" PID")]


def keys_of(step):
    """The bytes that are typed for a step."""
    if step in KEYS:
        return bytes([KEYS[step]])
    if step.startswith("+"):
        return step[1:].encode()
    return step.encode() + b"\n"


class Real:
    """A session with a real shell."""

    def __init__(self, name, room):
        self.name = name
        folder = tempfile.mkdtemp(dir=room)
        for file, text in FILES.items():
            with open(f"{folder}/{file}", "w", encoding="ascii") as it:
                it.write(text)
        environment = {"PATH": f"{room}/bin:/usr/bin:/bin", "HOME": folder, "ENV": "/dev/null", "LC_ALL": "C", "TERM": "dumb"}
        self.pid, self.terminal = pty.fork()
        if self.pid == 0:
            os.chdir(folder)
            attributes = termios.tcgetattr(0)
            attributes[3] &= ~termios.ECHO
            attributes[1] &= ~termios.OPOST
            termios.tcsetattr(0, termios.TCSANOW, attributes)
            for number in (signal.SIGINT, signal.SIGQUIT, signal.SIGTSTP, signal.SIGTTIN, signal.SIGTTOU, signal.SIGPIPE):
                signal.signal(number, signal.SIG_DFL)
            os.execvpe(SHELLS[name][0], SHELLS[name], environment)
        self.is_open = True
        self.wait()
        self.type(b"PS1='$ ' PS2='> '\n")

    def processes(self):
        """The processes of the session and their states."""
        found = {}
        for entry in os.listdir("/proc"):
            if entry.isdigit():
                try:
                    with open(f"/proc/{entry}/stat", encoding="latin-1") as it:
                        fields = it.read().rpartition(")")[2].split()
                except OSError:
                    continue
                if int(fields[3]) == self.pid:
                    found[int(entry)] = fields[0]
        return found

    def read(self, seconds):
        """What comes within so many seconds; b"" for nothing."""
        if not self.is_open:
            time.sleep(seconds)
            return b""
        if not select.select([self.terminal], [], [], seconds)[0]:
            return b""
        try:
            piece = os.read(self.terminal, 65536)
        except OSError:
            piece = b""
        if not piece:
            self.is_open = False
        return piece

    def wait(self):
        """What is written until all processes rest."""
        out, since, end = b"", time.monotonic(), time.monotonic() + LONGEST
        while time.monotonic() < end:
            piece = self.read(0.02)
            out += piece
            if piece or any(state in "RD" for state in self.processes().values()):
                # (a loop runs for ever, and writes nothing)
                if not piece and time.monotonic() - since > 4 * QUIET:
                    break
                if piece:
                    since = time.monotonic()
                continue
            if time.monotonic() - since > QUIET:
                break
        return out

    def type(self, keys):
        if self.is_open:
            try:
                os.write(self.terminal, keys)
            except OSError:
                self.is_open = False
        return self.wait()

    def close(self):
        for pid in self.processes():
            for number in (signal.SIGKILL, signal.SIGCONT):
                try:
                    os.kill(pid, number)
                except ProcessLookupError:
                    pass
        os.close(self.terminal)
        os.waitpid(self.pid, 0)


def by_shell(name, room, steps):
    """What a real shell writes in each step."""
    session = Real(name, room)
    try:
        return [lines_of(name, it, session.type(keys_of(it))) for it in steps]
    finally:
        session.close()


def events_of(step):
    """The events of a step of psh."""
    if step in KEYS:
        typed = f"key {KEYS[step]:02x}\n"
    elif step.startswith("+"):
        typed = f"type {step[1:]}\n"
    else:
        typed = (f"type {step}\n" if step else "") + "key 0a\n"
    return typed + f"next {TURNS}\n"


def echo_of(step):
    """What psh's terminal shows of the keys of a step, as they are typed."""
    if step in KEYS:
        return {"^C": b"^C\n", "^\\": b"^\\\n", "^Z": b"^Z\n", "^D": b"", "^?": b"\b \b"}[step]
    return keys_of(step)


def image():
    """The image of files for psh."""
    entries = [(f"/bin/{name}", "r-x", f"#!stock {name}\n") for name in STOCK]
    entries += [(f"/{name}", "rw-", text) for name, text in FILES.items()]
    files = "".join(f"file {path} {flags} {len(text)}\n{text}\n" for path, flags, text in entries)
    return f"psh image 1\ndir /bin\n{files}end\n"


def by_psh(program, room, steps):
    """What psh writes in each step."""
    folder = tempfile.mkdtemp(dir=room)
    with open(f"{folder}/image", "w", encoding="ascii") as it:
        it.write(image())

    def run(events):
        with open(f"{folder}/events", "w", encoding="ascii") as it:
            it.write(events)
        words = [program, f"{folder}/image", f"{folder}/events"]
        return subprocess.run(words, stdin=subprocess.DEVNULL, stdout=subprocess.PIPE, stderr=subprocess.DEVNULL, check=True).stdout

    events = f"next {TURNS}\n"
    before, found = run(events), []
    for step in steps:
        events += events_of(step)
        now = run(events)
        piece = now[len(before):]
        if piece.startswith(echo_of(step)):
            piece = piece[len(echo_of(step)):]
        found.append(lines_of("psh", step, piece))
        before = now
    return found


def make_bin(room):
    """Programs for real shells."""
    os.mkdir(f"{room}/bin")
    for name, text in STAND_IN.items():
        with open(f"{room}/bin/{name}", "w", encoding="ascii") as it:
            it.write(f"#!/bin/sh\n{text}")
        os.chmod(f"{room}/bin/{name}", 0o755)


def by_all(program, room, number):
    """What each shell writes in the steps of a session."""
    steps = ALL[number - 1][1]
    found = {name: by_shell(name, room, steps) for name in SHELLS}
    if program:
        found["psh"] = by_psh(program, room, steps)
    return number, found


def main(program, numbers):
    missing = [name for name in SHELLS if not shutil.which(name)]
    if missing:
        sys.exit(f"not installed: {' '.join(missing)}")
    chosen = [int(it) for it in numbers] or list(range(1, len(ALL) + 1))
    against, agreed = 0, {kind: [] for kind in KINDS}
    with tempfile.TemporaryDirectory(prefix="jobs-") as room:
        make_bin(room)
        with concurrent.futures.ProcessPoolExecutor(4) as pool:
            results = list(pool.map(functools.partial(by_all, program, room), chosen))
    for number, found in results:
        rule, steps = ALL[number - 1]
        for kind in KINDS:
            views = {name: view(it, kind) for name, it in found.items()}
            real = [views[name] for name in SHELLS]
            same = all(it == real[0] for it in real)
            if same:
                agreed[kind].append(number)
            if same and program and views["psh"] != real[0]:
                against += 0 if rule else 1
                why = f", since {rule}" if rule else ""
                print(f"{number} {kind}: psh alone{why}: {steps}\n  psh: {views['psh']}\n  the others: {real[0]}")
            elif not same:
                print(f"{number} {kind}: the shells differ: {steps}")
                for name, it in views.items():
                    print(f"  {name}: {it}")
            sys.stdout.flush()
    for kind, them in agreed.items():
        print(f"{kind}: the three shells agree in {len(them)} of {len(chosen)} sessions: {' '.join(map(str, them))}")
    if program:
        print(f"psh stands against all three in {against} views")
    return 1 if against else 0


if __name__ == "__main__":
    words = sys.argv[1:]
    if not words or any(not it.isdigit() or not 1 <= int(it) <= len(ALL) for it in words[1:]):
        sys.exit(__doc__)
    sys.exit(main(None if words[0] == "--without-psh" else os.path.abspath(words[0]), words[1:]))
