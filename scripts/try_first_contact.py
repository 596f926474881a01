#!/usr/bin/env python3
"""Does in a copy of the repository what somebody does who has just cloned it: runs the commands at the top and those of a page, builds,
and runs them again.

usage: try_first_contact.py [--build]

Says what comes to something else than it should, and last how many checks passed and failed; ends with 1 where one failed. It takes
one compilation of each unproved program, all three at once, and a run of ./build. Where the toolchain's rt ci keeps nothing of what it
passed, such a run proves all of psh once more; so the programs that rt ci has built in the repository take its place there, unless
--build asks for it.
"""
import concurrent.futures
import dataclasses
import os
import re
import shutil
import signal
import subprocess
import sys
import tempfile
import time

import proving
import sources

TOP = os.path.dirname(os.path.dirname(os.path.abspath(__file__)))
FIRST = "echo 'a  b'; x=1; echo $x $?"
# What a command says of itself as long as it runs the unproved program, and where that isn't for want of a build.
UNPROVED = rb"psh[-\w]*: not built: this is the unproved program[^\n]*\n"
CHANGED = rb"psh[-\w]*: the sources have changed since \./build: this is the unproved program[^\n]*\n"
# The page whose commands are tried, and how those begin that are tried.
PAGE = "docs/SCHEDULES.md"
COMMANDS = ("./psh", "scripts/", "mkdir ", "cat >", "cp ", "seq ")
# A file that no part of the unproved program is made of, and one of a crate on which psh stands, with a wrong body for it.
DEFINITION = "crates/sh_pipe/specs/Lib.antt"
WRONG_CRATE = "sh_base"
WRONG_BODY = f"wrong-bodies/{WRONG_CRATE}/len_is_half.edit"


class Checks:
    """What was looked at so far."""

    def __init__(self):
        self.passed = self.failed = 0

    def check(self, what, found, wanted):
        if found == wanted:
            self.passed += 1
            return
        self.failed += 1
        print(f"{what}: {found!r} in place of {wanted!r}", flush=True)


@dataclasses.dataclass
class Call:
    """A way to call a program, and what comes of it: the status, the output, or how it begins, and how the complaints begin."""

    what: str
    folder: str
    words: list
    status: int
    output: bytes
    complaint: bytes = b""
    is_whole: bool = True


def copy_to(copy):
    """Copies what git knows or doesn't ignore."""
    git = ["git", "-C", TOP, "ls-files", "-z", "--cached", "--others", "--exclude-standard"]
    files = subprocess.run(git, check=True, capture_output=True, text=True).stdout
    for file in filter(os.path.isfile, (f"{TOP}/{it}" for it in files.split("\0") if it)):
        to = f"{copy}/{os.path.relpath(file, TOP)}"
        os.makedirs(os.path.dirname(to), exist_ok=True)
        shutil.copy(file, to)


def run(words, folder):
    """Runs a command as from a shell, and gives its status, output and complaints."""
    environment = {name: value for name, value in os.environ.items() if name != "CI"}
    ran = subprocess.run(words, cwd=folder, env=environment, stdin=subprocess.DEVNULL, capture_output=True)
    return ran.returncode, ran.stdout, ran.stderr


def lay_out(copy, room):
    """Makes a folder outside the copy, with files to name there, and a link to ./psh."""
    elsewhere = f"{room}/else where"
    os.makedirs(elsewhere)
    for name in ("pipeline.image", "shared.image", "one-after-another.events"):
        shutil.copy(f"{copy}/examples/{name}", elsewhere)
    with open(f"{elsewhere}/typed.events", "w", encoding="utf-8") as it:
        it.write("next 9\ntype echo $0\nkey 0a\nnext 20\n")
    os.symlink(f"{copy}/psh", f"{room}/link")
    return elsewhere


def psh_calls(copy, room, elsewhere):
    """Ways to call psh."""
    psh, examples, count = f"{copy}/psh", f"{copy}/examples", "cat <in | having pl | count"
    files = ["pipeline.image", "one-after-another.events"]
    return [
        Call("inside", copy, ["./psh", "-c", FIRST, "examples/empty.image", "examples/eight.events"], 0, b"a  b\n1 0\n"),
        Call("from a folder of it", examples, ["../psh", "-c", count, *files], 0, b"11\n"),
        Call("from elsewhere", elsewhere, [psh, "-c", count, *files], 0, b"11\n"),
        Call("by a link", elsewhere, [f"{room}/link", "-c", count, *files], 0, b"11\n"),
        Call("by absolute paths", "/", [psh, "-c", count, *(f"{elsewhere}/{it}" for it in files)], 0, b"11\n"),
        Call("a path upward", elsewhere, [psh, "-c", FIRST, "../copy/examples/empty.image", f"{examples}/eight.events"], 0, b"a  b\n1 0\n"),
        Call("a script of the image", elsewhere, [psh, "shared.image", "one-after-another.events", "/two"], 0, b"one\nand two\n"),
        Call("a usage", copy, ["./psh", "-c"], 2, b"", b"error: "),
        Call("no script: typed lines", elsewhere, [psh, files[0], "typed.events"], 0, b"$ echo $0\npsh\n$ "),
        Call("no image", elsewhere, [psh, "one-after-another.events"], 2, b"", b"error: "),
        Call("a bad image", elsewhere, [psh, "-c", "x", "one-after-another.events", files[1]], 1, b"", b"psh: BadHeader: line 1\n"),
        Call("bad events", elsewhere, [psh, "-c", "x", files[0], "pipeline.image"], 1, b"", b"psh: BadEvent: line 1\n"),
        Call("a file that isn't there", elsewhere, [psh, "-c", "x", "none", files[1]], 4, b"", b"psh: "),
        Call("bytes that are no text", elsewhere, [psh, "-c", b"echo \xff", *files], 0, b"\xff\n"),
    ]


def schedules_calls(copy, elsewhere):
    """Ways to call psh-schedules."""
    program, name = f"{copy}/psh-schedules", "psh-schedules: "
    tried = ["--preemptions", "0", "-c", "echo a & echo b & wait"]
    two = b"schedules 2\noutcomes 2\noutcome 1: 1 schedule, ended, 4 bytes\na\nb\n"
    update = 'told=$(../../psh-schedules --preemptions 1 -c "$(cat script)" image); status=$?; echo "$told" | grep "^outcomes [0-9]*$"; exit $status'
    return [
        Call("lost-update", f"{copy}/examples/lost-update", ["sh", "-c", update], 1, b"outcomes 2\n"),
        Call("lost-update-repaired", f"{copy}/examples/lost-update-repaired", ["sh", "-c", update], 0, b"outcomes 1\n"),
        Call("two outcomes", copy, ["./psh-schedules", *tried, "examples/empty.image"], 1, two, is_whole=False),
        Call("from elsewhere", elsewhere, [program, *tried, "../copy/examples/empty.image"], 1, two, is_whole=False),
        Call("a script of the image", elsewhere, [program, "shared.image", "/two"], 0, b"schedules 1\noutcomes 1\n", is_whole=False),
        Call("a part", elsewhere, [program, "--shard", "1/2", *tried, "pipeline.image"], 0, b"psh-schedules shard 1 of 2\n", is_whole=False),
        Call("no image", copy, ["./psh-schedules", "-c", "x"], 2, b"", b"error: "),
        Call("a wrong option", copy, ["./psh-schedules", "--preemption", "1"], 2, b"", b"error: "),
        Call("a file that isn't there", elsewhere, [program, "-c", "x", "none"], 4, b"", name.encode()),
        Call("a bad image", elsewhere, [program, "-c", "x", "one-after-another.events"], 1, b"", f"{name}BadHeader: line 1\n".encode()),
        Call("a part that isn't there", elsewhere, [program, "merge", "none"], 4, b"", name.encode()),
    ]


def timeline_calls(copy, elsewhere):
    """Ways to call psh-timeline."""
    program, line = f"{copy}/psh-timeline", b"1\t100\tsh\treads a command\t\n"
    files = ["pipeline.image", "one-after-another.events"]
    return [
        Call("lines", copy, ["./psh-timeline", "--text", "-c", FIRST, "examples/empty.image", "examples/eight.events"], 0, line, is_whole=False),
        Call("lines from elsewhere", elsewhere, [program, "--text", "-c", "cat <in", *files], 0, line, is_whole=False),
        Call("a picture", elsewhere, [program, "-c", "cat <in", *files], 0, b"<svg ", is_whole=False),
        Call("no events", elsewhere, [program, "-c", "x", files[0]], 2, b"", b"error: "),
        Call("events that aren't there", elsewhere, [program, "-c", "x", files[0], "none"], 4, b"", b"psh-timeline: "),
        Call("bad events", elsewhere, [program, "-c", "x", files[0], files[0]], 1, b"", b"psh-timeline: BadEvent: line 1\n"),
    ]


def call_each(checks, calls, when, said):
    """Calls programs in each way. Before their own complaints stands one line that fits what is to be said of them, or none."""
    for call in calls:
        what = f"{when}, {os.path.basename(call.words[0])}, {call.what}"
        status, output, complaints = run(call.words, call.folder)
        head = re.match(said, complaints)
        checks.check(f"{what}: what is said of the program", bool(head), True)
        rest = complaints[head.end() :] if head else complaints
        wrote = output if call.is_whole else output[: len(call.output)]
        checks.check(what, (status, wrote, rest[: len(call.complaint)]), (call.status, call.output, call.complaint))
        checks.check(f"{what}: whether it complains", bool(rest), bool(call.complaint))


def heed_interrupts():
    """Has a process heed the interrupt, which what runs in the background of a script ignores (XCU 2.12)."""
    signal.signal(signal.SIGINT, signal.SIG_DFL)


def interrupt(checks, copy, room):
    """Interrupts a first call once it compiles, as from a terminal; nothing stays of what it began."""
    how = {"cwd": copy, "stdin": subprocess.DEVNULL, "stdout": subprocess.DEVNULL, "stderr": subprocess.PIPE, "start_new_session": True}
    how["preexec_fn"] = heed_interrupts
    called = subprocess.Popen(["./psh-timeline", "--help"], env={**os.environ, "TMPDIR": f"{room}/temporary"}, **how)
    for _ in range(600):
        if os.listdir(f"{room}/temporary") or called.poll() is not None:
            break
        time.sleep(0.1)
    time.sleep(2)
    os.killpg(called.pid, signal.SIGINT)
    said = called.communicate()[1].decode(errors="replace")
    checks.check(f"an interrupt: its status is one of failure, {called.returncode}", called.returncode != 0, True)
    checks.check(f"an interrupt: what it says, {said!r}", "nothing is kept" in said and "Traceback" not in said, True)
    checks.check("an interrupt: what it leaves", os.listdir(f"{room}/temporary"), [])
    checks.check("an interrupt: what it keeps", [it for it in os.listdir(f"{copy}/out") if not it.endswith(".lock")], [])


def call_first(checks, calls):
    """Calls programs for the first time, all at once, one of them twice; each is compiled once."""

    def call(it):
        began = time.time()
        call_each(checks, [it], "at first", UNPROVED)
        return f"{os.path.basename(it.words[0])} {time.time() - began:.0f} s"

    with concurrent.futures.ThreadPoolExecutor(len(calls)) as pool:
        print(f"the first answers, all at once: {', '.join(pool.map(call, calls))}", flush=True)


def blocks_of(page):
    """The indented blocks of a page, without the indent."""
    found = re.findall(r"(?m)(?:^    .*\n(?:\n(?=    ))?)+", page)
    return [re.sub(r"(?m)^    ", "", it) for it in found]


def try_page(checks, copy):
    """Runs the commands of the page, one block after another. A block that is none is what the block before wrote, or a part of what
    stands in the file that it wrote."""
    with open(f"{copy}/{PAGE}", encoding="utf-8") as it:
        blocks = blocks_of(it.read())
    commands, written = [it for it in blocks if it.startswith(COMMANDS)], ""
    checks.check(f"{PAGE}: how many blocks are commands", len(commands) >= 10, True)
    for block in blocks:
        if block in commands and ".." not in block:
            status, output, complaints = run(["sh", "-c", block], copy)
            written = output.decode()
            checks.check(f"{PAGE}: {block}: its status is 0 or 1, {complaints!r}", status < 2, True)
            checks.check(f"{PAGE}: {block}: what it complains of", re.sub(UNPROVED, b"", complaints), b"")
        elif block.startswith(("schedules ", "outcomes ")):
            told = written
            if not told:
                with open(f"{copy}/told", encoding="utf-8") as it:
                    told = it.read()
            checks.check(f"{PAGE}: {block}: whether {told} has it", block in told, True)


def examples(copy):
    """The commands of the README's examples and of those in the folder `examples`, each with the lines that it says they write."""
    text = ""
    for page in ("README.md", "examples/README.md"):
        with open(f"{copy}/{page}", encoding="utf-8") as it:
            text += it.read()
    for words, said in re.findall(r"^\| `(-c .*?)` \| ((?:`[^`]*`(?:, )?)+) \| ", text, re.M):
        lines = "".join(f"{line}\n" for line in re.findall(r"`([^`]*)`", said))
        yield "../psh " + words.replace("\\|", "|"), lines.replace("\\|", "|").encode()


def try_examples(checks, copy):
    """Runs the README's examples, and those in the folder `examples`."""
    found = list(examples(copy))
    checks.check("examples of the two pages", len(found) >= 12, True)
    for command, lines in found:
        ran = run(["sh", "-c", command], f"{copy}/examples")
        checks.check(command, (ran[0], ran[1]), (0, lines))


def build(checks, copy, when, status, last, words=()):
    """Runs ./build, and gives what it wrote."""
    began = time.time()
    found = run([f"{copy}/build", *words], copy)
    print(f"./build, {when}: {time.time() - began:.0f} s", flush=True)
    checks.check(f"./build, {when}: its status", found[0], status)
    said = (found[1] if status == 0 else found[2]).decode(errors="replace")
    checks.check(f"./build, {when}: what it says, {said[-300:]!r}", bool(re.search(last, said)), True)
    return found[1].decode(errors="replace")


def put_wrong_body(copy):
    """Puts a wrong body into the copy, and gives what takes it out again."""
    with open(f"{copy}/{WRONG_BODY}", encoding="utf-8") as it:
        edit = dict(line.rstrip("\n").split(": ", 1) for line in it)
    path = f"{copy}/crates/{WRONG_CRATE}/{edit['file']}"
    with open(path, encoding="utf-8") as it:
        text = it.read()
    with open(path, "w", encoding="utf-8") as it:
        it.write(text.replace(edit["old"], edit["new"]))
    return path, text


def build_whole(checks, copy):
    """Builds, and looks at the lines of progress."""
    said = build(checks, copy, "the first time", 0, r"psh is proved and built")
    progress = re.findall(r"^(\d+) of (\d+)  \w+ (?:proved in \d+ s|was proved before)", said, re.M)
    checks.check("a line of progress for each crate", progress, [(str(it + 1), progress[-1][1]) for it in range(int(progress[-1][1]))] if progress else None)


def put_built(copy):
    """Puts the programs that rt ci has built in the repository into the copy, as ./build does."""
    for command, crate in sources.PROGRAMS.items():
        files = sources.files_of(sources.crates_below(crate), sources.PARTS)
        sources.put(f"{TOP}/crates/{crate}/out/{crate}", command, sources.sums_of(files), f"{copy}/out")


def build_and_change(checks, copy, calls, is_whole):
    """What comes of builds, and of files that change behind one."""
    if is_whole:
        build_whole(checks, copy)
    else:
        put_built(copy)
    call_each(checks, calls, "built", rb"")
    try_examples(checks, copy)
    with open(f"{copy}/{DEFINITION}", "a", encoding="utf-8") as it:
        it.write("\n")
    call_each(checks, calls[:1], "changed", CHANGED)
    shutil.copy(f"{TOP}/{DEFINITION}", f"{copy}/{DEFINITION}")
    path, text = put_wrong_body(copy)
    build(checks, copy, "with a wrong body", 1, rf"build: {WRONG_CRATE} isn't proved: .*\w")
    with open(path, "w", encoding="utf-8") as it:
        it.write(text)
    call_each(checks, calls[:1], "as it was built", rb"")
    build(checks, copy, "once more", 0, r"psh was built of these sources before.*\npsh-schedules was built")
    build(checks, copy, "of a word that is no program", 1, r"usage: build", ["1", "2"])


def main(words):
    checks = Checks()
    is_whole = "--build" in words or proving.gate_keeps()
    with tempfile.TemporaryDirectory(prefix="first-contact-") as room:
        os.environ["XDG_CACHE_HOME"] = f"{room}/cache"
        copy = f"{room}/copy"
        copy_to(copy)
        os.mkdir(f"{room}/temporary")
        elsewhere = lay_out(copy, room)
        psh, schedules, timeline = psh_calls(copy, room, elsewhere), schedules_calls(copy, elsewhere), timeline_calls(copy, elsewhere)
        interrupt(checks, copy, room)
        call_first(checks, [psh[0], psh[2], schedules[3], timeline[1]])
        calls = psh + schedules + timeline
        call_each(checks, calls, "unproved", UNPROVED)
        try_page(checks, copy)
        build_and_change(checks, copy, calls, is_whole)
    print(f"contact: {checks.passed} passed, {checks.failed} failed", flush=True)
    return 1 if checks.failed else 0


if __name__ == "__main__":
    sys.exit(main(sys.argv[1:]))
