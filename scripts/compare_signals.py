#!/usr/bin/env python3
"""Sends signals at random to processes of this machine, and compares how they stand with what sh_kernel_processes says.

usage: compare_signals.py [COUNT [SEED]]

A scenario is a session of up to six processes that fork, change their group and what they do with signals, end, and get signals one by
one and by groups. It is made of real processes, and by a program over the crate, which rt try compiles. Both say how each process stands
after each step. A scenario that differs is made again twice, since real processes race. Ends with 1 where one differs each time.

After each step the real processes wait for those of their children that have ended, and this script for those whose maker has ended.
So a difference is only possible where a parent is stopped and can't wait: Linux counts a process that has ended as a member of its group
until it is waited for, and then the end of that parent can send HUP to a stopped member although the group was orphaned before.
"""
import ctypes
import os
import random
import select
import signal
import subprocess
import sys
import tempfile
import time

import try_layers

PROGRAM = r"""
//! Scenarios, a line each: steps with `;` between them. Writes how each process stands after each step.
#![tactic(auto)]

use sh_kernel_processes::{ProcessList, Status};
use sh_kernel_processes::{
    Member, SignalAction, SignalSet, SignalTarget, add_fork, end, send, set_action, set_group,
    start_program,
};
use sh_signal::Signal;
use std::alloc::{AllocError, Global};
use std::env;
use std::fs;
use std::io;
use std::str;

#[derive(Drop)]
struct Session {
    processes: ProcessList,
    members: Vec<Member>,
}

fn number(step: &[u8], place: usize) -> u32 {
    let word = step.split(|byte| *byte == b' ').nth(place).unwrap_or(b"");
    let Ok(text) = str::from_utf8(word) else {
        return 0;
    };
    text.parse().unwrap_or(0)
}

fn signal(step: &[u8], place: usize) -> Signal {
    Signal::from_number(u64::from(number(step, place))).unwrap_or(Signal::Child)
}

fn fork(session: &mut Session, maker: u32) -> Result<(), AllocError> {
    let child = u32::try_from(session.processes.as_slice().len()).unwrap_or(0).saturating_add(100);
    session.processes.reserve()?;
    add_fork(&mut session.members, maker, child)?;
    session.processes.start(maker);
    Ok(())
}

fn action(number: u32) -> SignalAction {
    match number {
        1 => SignalAction::Ignored,
        2 => SignalAction::Caught,
        _ => SignalAction::Default,
    }
}

fn give(
    alloc: Global,
    session: &mut Session,
    to: &SignalTarget,
    signal: Signal,
) -> Result<(), AllocError> {
    send(alloc, &mut session.processes, &mut session.members, to, signal)?;
    Ok(())
}

fn take(alloc: Global, session: &mut Session, step: &[u8]) -> Result<(), AllocError> {
    let pid = number(step, 1);
    match step.first() {
        Some(b'f') => fork(session, pid)?,
        Some(b'g') => set_group(&mut session.members, pid, number(step, 2)),
        Some(b'x') => start_program(&mut session.members, pid),
        Some(b'a') => set_action(&mut session.members, pid, signal(step, 2), action(number(step, 3))),
        Some(b's') => give(alloc, session, &SignalTarget::Process(pid), signal(step, 2))?,
        Some(b'S') => give(alloc, session, &SignalTarget::Group(pid), signal(step, 2))?,
        _ => {
            let status = u8::try_from(number(step, 2)).unwrap_or(0);
            end(alloc, &mut session.processes, &mut session.members, pid, status)?;
        },
    }
    Ok(())
}

fn show(rt: HostRuntime, session: &Session) -> io::Result<()> {
    for process in session.processes.as_slice() {
        match process.status {
            Status::Running => print!(rt; " R")?,
            Status::Stopped(_) => print!(rt; " T")?,
            Status::Exited(status) => print!(rt; " E{status}")?,
            Status::Signaled(number) => print!(rt; " S{number}")?,
        }
    }
    print!(rt; ";")
}

fn start(alloc: Global) -> Result<Session, AllocError> {
    let member = Member {
        pid: 100,
        group: 100,
        ignored: SignalSet::new(),
        caught: SignalSet::new(),
        pending: SignalSet::new(),
        kept: SignalSet::new(),
    };
    Ok(Session {
        processes: ProcessList::new(alloc)?,
        members: vec![in alloc; member; 1]?,
    })
}

fn scenario(rt: HostRuntime, steps: &[u8]) -> io::Result<()> {
    let mut session = start(rt.alloc())?;
    for step in steps.split(|byte| *byte == b';') {
        take(rt.alloc(), &mut session, step)?;
        show(rt, &session)?;
    }
    println!(rt; "")
}

fn main(rt: HostRuntime) -> io::Result<()> {
    for word in env::args(&rt)?.skip(1) {
        let bytes = fs::read(&rt, &word)?;
        for line in bytes.split(|byte| *byte == b'\n') {
            if !line.is_empty() {
                scenario(rt, line)?;
            }
        }
    }
    Ok(())
}
"""

# HUP INT QUIT ABRT KILL USR1 USR2 PIPE ALRM TERM CHLD CONT STOP TSTP TTIN TTOU
SIGNALS = [1, 2, 3, 6, 9, 10, 12, 13, 14, 15, 17, 18, 19, 20, 21, 22]
# Those that are sent: stops and CONT more often.
SENT = SIGNALS + [18, 18, 18, 18, 18, 19, 19, 20, 20, 20, 21, 22]


def sent_by(chance, count):
    """A step that sends a signal, to the first process or its group in few cases, since most signals end it."""
    pid = 100 + (chance.randrange(count) if chance.random() < 0.15 else chance.randrange(1, max(2, count)))
    return (chance.choice("sS"), pid, chance.choice(SENT))


def scenario_by(chance):
    """The steps of a scenario. One that can't be taken as things stand then is left out when the scenario is made."""
    count = chance.randint(2, 4)
    steps = [("f", 100 + chance.randrange(place)) for place in range(1, count)]
    steps += [("g", pid, chance.choice([pid, 101])) for pid in range(101, 100 + count)]
    for _ in range(chance.randint(6, 18)):
        pid = 100 + chance.randrange(count)
        kind = chance.choice("fgaaxessssssss")
        if kind == "f" and count < 6:
            steps.append(("f", pid))
            count += 1
        elif kind == "g" and pid != 100:
            steps.append(("g", pid, chance.choice([pid, 100 + chance.randrange(count)])))
        elif kind == "a":
            number = chance.choice([number for number in SIGNALS if number not in (9, 17, 19)])
            steps.append(("a", pid, number, chance.randrange(3)))
        elif kind == "x":
            steps.append(("x", pid))
        elif kind == "e":
            steps.append(("e", pid, chance.randrange(4)))
        elif kind == "s":
            steps.append(sent_by(chance, count))
    return steps


# ---- real processes
def caught(_number, _frame):
    """What is done with a signal that is caught."""


def read_word(descriptor):
    """The next command; None where nobody writes any more."""
    text = b""
    while True:
        byte = os.read(descriptor, 1)
        if not byte:
            return None
        if byte == b"\n":
            return text.decode().split()
        text += byte


class Raced(Exception):
    """A process stands otherwise by now than it was seen to: it answers no command."""


def answer(descriptor):
    """What a process answers to a command."""
    if not select.select([descriptor], [], [], 5)[0]:
        raise Raced
    return read_word(descriptor)


def live(commands, answers):
    """A process: it does what it is told by its pipe, and says so."""
    for number in SIGNALS:
        if number not in (9, 19):
            signal.signal(number, signal.SIG_DFL)
    handled = set()
    while True:
        word = read_word(commands[0][0])
        if word is None:
            os._exit(99)
        if word[0] == "f":
            place = int(word[1])
            child = os.fork()
            if child == 0:
                commands = [commands[place]] + commands[1:]
                for number in handled:
                    signal.signal(number, signal.SIG_DFL)
                handled = set()
            else:
                os.write(answers[1], f"{child}\n".encode())
        elif word[0] == "g":
            os.setpgid(0, int(word[1]))
            os.write(answers[1], b"done\n")
        elif word[0] == "a":
            number, action = int(word[1]), int(word[2])
            signal.signal(number, [signal.SIG_DFL, signal.SIG_IGN, caught][action])
            handled = handled | {number} if action == 2 else handled - {number}
            os.write(answers[1], b"done\n")
        elif word[0] == "x":
            for number in handled:
                signal.signal(number, signal.SIG_DFL)
            handled = set()
            os.write(answers[1], b"done\n")
        elif word[0] == "w":
            os.waitpid(int(word[1]), 0)
            os.write(answers[1], b"done\n")
        elif word[0] == "e":
            os._exit(int(word[1]))


def fields_of(pid):
    """What the system shows of a process, from its state on."""
    with open(f"/proc/{pid}/stat", encoding="ascii") as it:
        return it.read().rsplit(")", 1)[1].split()


def stand_of(pid):
    """How a process stands that nobody has waited for."""
    fields = fields_of(pid)
    if fields[0] in "ZX":
        status = int(fields[49])
        return f"S{status & 127}" if status & 127 else f"E{status >> 8}"
    return "T" if fields[0] in "Tt" else "R"


def parent_of(pid):
    """The parent of a process that nobody has waited for."""
    return int(fields_of(pid)[1])


def end_session(session):
    """Ends all processes of a session, and all children of this process."""
    for pid in filter(str.isdigit, os.listdir("/proc")):
        try:
            if os.getsid(int(pid)) == session:
                os.kill(int(pid), 9)
        except ProcessLookupError:
            pass
    try:
        while True:
            os.wait()
    except ChildProcessError:
        pass


class Session:
    """A session of real processes, by the numbers that the program gives them."""

    def __init__(self):
        self.commands = [os.pipe() for _ in range(6)]
        self.answers = os.pipe()
        self.pids = [os.fork()]
        # how those ended that were waited for
        self.ends = {}
        if self.pids == [0]:
            os.setsid()
            os.write(self.answers[1], b"done\n")
            live(self.commands, self.answers)
        answer(self.answers[0])

    def real(self, number):
        """The process of a number; None where there is none yet."""
        return self.pids[number - 100] if number - 100 < len(self.pids) else None

    def tell(self, number, command):
        """Gives a process a command."""
        os.write(self.commands[number - 100][1], command.encode() + b"\n")

    def stand(self, pid):
        """How a process stands."""
        return self.ends.get(pid) or stand_of(pid)

    def settled(self):
        """How all stand, once nothing changes."""
        last, same = None, 0
        while same < 4:
            time.sleep(0.003)
            now = [self.stand(pid) for pid in self.pids]
            same = same + 1 if now == last else 0
            last = now
        return last

    def waits(self, stands):
        """Whoever is the parent of a process that has ended waits for it, unless that parent is stopped or has ended itself."""
        for pid, stand in zip(self.pids, stands):
            if pid in self.ends or stand in "RT":
                continue
            parent = parent_of(pid)
            if parent == os.getpid():
                os.waitpid(pid, 0)
            elif self.stand(parent) == "R":
                self.tell(100 + self.pids.index(parent), f"w {pid}")
                answer(self.answers[0])
            else:
                continue
            self.ends[pid] = stand

    def has_group(self, group):
        """Whether a process that lives is in the group."""
        return group in [os.getpgid(pid) for pid in self.pids if self.stand(pid) in "RT"]

    def does(self, step):
        """A step that a process takes itself: whether it could."""
        kind, number = step[0], step[1]
        if self.stand(self.real(number)) != "R":
            return False
        if kind == "g" and (not self.real(step[2]) or step[2] != number and not self.has_group(self.real(step[2]))):
            return False
        if kind == "f":
            self.tell(number, f"f {len(self.pids)}")
            self.pids.append(int(answer(self.answers[0])[0]))
        elif kind == "e":
            self.tell(number, f"e {step[2]}")
        else:
            self.tell(number, f"g {self.real(step[2])}" if kind == "g" else " ".join(str(word) for word in (kind, *step[2:])))
            answer(self.answers[0])
        return True

    def sends(self, step):
        """A step that sends a signal: whether it could be taken."""
        kind, number, sent = step
        if kind == "s":
            if self.real(number) not in self.ends:
                os.kill(self.real(number), sent)
        elif self.has_group(self.real(number)):
            os.killpg(self.real(number), sent)
        else:
            return False
        return True

    def close(self):
        """Ends all processes."""
        end_session(self.pids[0])
        for one in self.commands + [self.answers]:
            os.close(one[0])
            os.close(one[1])


def really(steps):
    """The steps that could be taken, and how all stand after each."""
    session = Session()
    taken, stands = [], []
    try:
        for step in steps:
            if session.real(step[1]) and (session.sends(step) if step[0] in "sS" else session.does(step)):
                taken.append(step)
                stands.append(session.settled())
                session.waits(stands[-1])
    finally:
        session.close()
    return taken, "".join(" " + " ".join(stand) + ";" for stand in stands)


# ---- both
def line_of(steps):
    """A scenario as a line for the program."""
    return ";".join(" ".join(str(word) for word in step) for step in steps)


def said(lines):
    """What the program says of scenarios."""
    with tempfile.TemporaryDirectory(prefix="signals-") as folder:
        try_layers.put_program(PROGRAM, folder)
        with open(f"{folder}/scenarios", "w", encoding="ascii") as it:
            it.write("\n".join(lines) + "\n")
        ran = subprocess.run(["rt", "try", "--seconds", "300", "--", f"{folder}/scenarios"], cwd=f"{folder}/crates/example",
                             capture_output=True, text=True)
        if ran.returncode != 0:
            sys.exit(ran.stdout + ran.stderr)
        return ran.stdout.splitlines()[:len(lines)]


def tried(steps):
    """What a scenario comes to, or None where its processes raced."""
    try:
        return really(steps)
    except Raced:
        return None


def differing(all_steps):
    """The scenarios that differ or whose processes raced, with what both say."""
    made = [(steps, tried(steps)) for steps in all_steps]
    raced = [(steps, steps, "raced", "") for steps, found in made if not found]
    made = [(steps, *found) for steps, found in made if found]
    spoken = said([line_of(taken) for _, taken, _ in made]) if made else []
    return raced + [(*it, says) for it, says in zip(made, spoken) if it[2] != says]


def main():
    count = int(sys.argv[1]) if len(sys.argv) > 1 else 100
    seed = int(sys.argv[2]) if len(sys.argv) > 2 else 1
    # what outlives its parent is a child of this process, which is of another session
    ctypes.CDLL(None).prctl(36, 1, 0, 0, 0)
    chance = random.Random(seed)
    wrong = differing([scenario_by(chance) for _ in range(count)])
    for _ in range(2):
        if wrong:
            wrong = differing([steps for steps, _, _, _ in wrong])
    for _, taken, stands, says in wrong:
        print(f"{line_of(taken)}\n    the system: {stands}\n    the crate:  {says}")
    print(f"signals: {count} scenarios, {len(wrong)} that differ")
    return 1 if wrong else 0


if __name__ == "__main__":
    sys.exit(main())
