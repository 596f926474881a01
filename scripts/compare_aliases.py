#!/usr/bin/env python3
"""Puts the texts of the rows on aliases to real shells, and tells in which rows none of them does what the row says.

usage: compare_aliases.py [--differences] [ROWS]

ROWS is crates/psh/rows-aliases where it isn't given. psh isn't run: what it has to do stands in the rows (run_psh_rows.py). The shells are
dash, bash, yash and mksh, bash and yash as POSIX has them; mksh forgets its own aliases first. Each gets the text of a row with -c, its
script, or with -i the typed lines on standard input, in a folder with the row's files, as nobody. Its PATH has the programs of the row's
image alone, and such as yash has built in only where PATH has them.

Compared is standard output, whether something was written to standard error, and the status, where the row tells it (`--report`; not mksh's). In a
row both outputs go to the terminal: a line that begins with `psh: ` counts as standard error. A shell that doesn't end in time has no
opinion, nor has any shell on a row with other keys than those of typed lines, or whose events say which process moves. How a shell
words a message doesn't count.

Told is a row where the shells that have an opinion agree with one another and not with the row (`against`), and one where they
differ and none has what the row says (`alone`). Each needs a reason in REASONS. `--differences` lists the rows too where some shell
agrees with the row and another doesn't. Ends with 1 where a reason is missing, or stands for a row that doesn't need it.
"""
import collections
import concurrent.futures
import contextlib
import dataclasses
import os
import re
import shutil
import signal
import subprocess
import sys
import tempfile
import time

from compare_shells import NOBODY, STAND_IN, TOP
from run_psh_rows import read_rows
from unpack_image import entries_of

SHELLS = {
    "dash": ["dash"],
    "bash": ["bash", "--posix", "--norc", "--noprofile", "--noediting", "-O", "expand_aliases"],
    "yash": ["yash", "-o", "posixly-correct"],
    "mksh": ["mksh"],
}

# A line before the text.
BEFORE = {"mksh": b"unalias -a\n"}

# yash has these built in only where PATH has them.
SUBSTITUTED = ["[", "echo", "false", "test", "true"]

# What shells run without end, process after process: they aren't asked.
ENDLESS = {
    "bash": [r"""alias a='echo `a`'\na"""],
    "yash": [
        r"""alias a='echo $(a)'\na""",
        r"""alias a='echo `a`'\na""",
        r"""alias a='echo $(b)' b=a\na""",
        r"""alias a='echo "$(echo $(a))"'\na""",
    ],
}
# (and a new such row shall not fill the machine)
LIMITS = ["prlimit", "--nproc=60", "--cpu=20"] if NOBODY else []

# A shell that takes longer than these seconds has no opinion.
LONGEST = 30

# So many seconds behind a typed line, since a shell that drops a line may drop what came with it.
PAUSE = 0.15

# What interactive shells write to standard error without a terminal: prompts, and what they say of it.
PROMPTS = re.compile(rb"[#$>] ")
NOISE = re.compile(rb"(?m)^.*(?:job control|terminal process group|access tty|tty fd|/dev/tty).*$|^exit$")

# Why rows stand where no shell does what they say: for each reason the texts, with \n for newlines.
REASONS = {
    "a value has to be whole tokens by itself, without a newline token and a here-document": [
        r"""alias q='echo $('; echo $?""",
        r"""alias q='echo "'; echo $?""",
        r"""alias q='echo `b'; echo $?""",
        r"""alias q='echo ${x'; echo $?""",
        r"""alias q='echo $((1'; echo $?""",
        r"""alias q='echo "$(b"'; echo $?""",
        r"""alias q='echo $(echo ")")"'; echo $?""",
        r"""alias q="echo '"; echo $?""",
        r"""alias q='echo a\necho b'; echo $?""",
        r"""alias q='echo a\n'; echo $?""",
        r"""alias q='\n'; echo $?""",
        r"""alias q='# a\n'; echo $?""",
        r"""alias q='cat <<E'; echo $?""",
        r"""alias q='cat <<-'; echo $?""",
        r"""alias q='cat<<'; echo $?""",
        r"""alias q='echo ok'; alias q='echo $('; echo $?; alias\nq""",
        r"""alias q='echo $(' r='echo r'; echo $?\nr""",
        r"""alias q='echo $('\necho $?\nalias""",
        r"""alias c='cat <<E'; echo $?\nalias a='echo x'\ncat <<E\n$(a)\nE""",
    ],
    "names are those of XBD 3.10 alone": [
        r"""alias 'a.b=c'; echo $?; alias""",
        r"""alias 'a+b=c'; echo $?; alias""",
        r"""alias 'a:b=c'; echo $?; alias""",
        r"""alias '[=c'; echo $?; alias""",
    ],
    "tokens of a value are never joined with those behind it": [
        r"""alias g='echo a &'\ng& echo b""",
        r"""alias s='echo a;'\ncase x in x) s; esac""",
        r"""alias r='echo a >'\nr>f""",
        r"""alias o='echo a |'\no| echo b""",
    ],
    "a comment ends with its value": [
        r"""alias n='# comment'\nn echo a""",
        r"""alias a='echo x # c'\na y; echo z""",
        r"""alias a='echo x #' \na y""",
        r"""alias c='echo x # ' b=y\nc b""",
    ],
    "a word with the text of a reserved word is no alias in the place of a command name, which 2.3.1 leaves open": [
        r"""alias if='echo x'\nv=1 if; >f if; echo $?""",
    ],
    "behind a value that ends in a blank such a word is an alias there too, which 2.3.1 leaves open": [
        r"""alias n='! ' if=echo\nn if a; echo $?""",
        r"""alias n=' ' if=echo\nn if true""",
    ],
    "jobs that have ended are listed after `wait`, and the lines of jobs are psh's own": [
        r"""alias s='cat <in'\ns >f & wait; jobs""",
    ],
}


@dataclasses.dataclass(frozen=True)
class Answer:
    """What a text comes to: standard output, the status (None where it isn't told), and whether there is a message."""

    out: bytes
    status: int | None
    has_message: bool

    def fits(self, other):
        """Whether these are the same, a status that isn't told being any."""
        told = None in (self.status, other.status) or self.status == other.status
        return self.out == other.out and self.has_message == other.has_message and told


def typed_lines(events):
    """The lines that events type, or None where they have other keys, or say which process moves."""
    text = b""
    for line in events.split(b"\n"):
        word, _, rest = line.partition(b" ")
        if word == b"type":
            text += rest
        elif word == b"key" and rest.lower() == b"0a":
            text += b"\n"
        elif word in (b"key", b"run"):
            return None
    return text.split(b"\n")[:-1]


def without_typed(out, typed):
    """What a terminal shows without prompts and the lines that were typed behind them."""
    left, shown = list(typed), []
    for line in out.splitlines(keepends=True):
        if left and line in (b"$ " + left[0] + b"\n", b"> " + left[0] + b"\n"):
            left.pop(0)
        elif line not in (b"$ ", b"> "):
            shown.append(line)
    return b"".join(shown)


@dataclasses.dataclass(frozen=True)
class Asked:
    """A row as real shells are asked."""

    line: int
    image: bytes
    # One of these is there: the text of -c, the path of a script, or the lines that are typed.
    text: bytes | None
    script: bytes | None
    typed: list | None
    # What the row says.
    wanted: Answer

    @staticmethod
    def of(row):
        words = [it for it in row.words if it != b"--report"]
        text = words[words.index(b"-c") + 1] if b"-c" in words else None
        script = words[2] if text is None and len(words) > 2 else None
        typed = typed_lines(row.events) if text is None and script is None else None
        out, _, report = row.out.partition(b"\nprocess 100 ")
        ended = re.match(rb"exited (\d+)\n", report)
        if typed is not None:
            out = without_typed(out, typed)
        message = re.compile(rb"(?m)^psh: [^\n]*\n")
        wanted = Answer(message.sub(b"", out), int(ended[1]) if ended else None, bool(message.search(out)))
        return Asked(row.line, row.image, text, script, typed, wanted)

    def name(self):
        """What is run, as it stands in REASONS."""
        shown = next((it for it in (self.text, self.script) if it is not None), b"\n".join(self.typed or []))
        return shown.decode().replace("\n", "\\n")


def put(path, text, mode):
    with open(path, "wb") as it:
        it.write(text)
    os.chmod(path, mode)


def lay(folder, image):
    """The files of an image below a folder, for real shells."""
    os.makedirs(f"{folder}/bin")
    for name in SUBSTITUTED:
        os.symlink(shutil.which(name), f"{folder}/bin/{name}")
    for names, mode, content in entries_of(image):
        path = os.path.join(folder, *map(os.fsdecode, names))
        stock = re.fullmatch(rb"#!stock (\w+)\n", content)
        if mode is None:
            os.makedirs(path, exist_ok=True)
        elif stock:
            name = stock[1].decode()
            put(path, f"#!/bin/sh\nPATH=/usr/bin:/bin\n{STAND_IN.get(name, f'exec {name}')}".encode(), 0o755)
        elif mode & 0o100:
            put(path, b"#!/bin/sh\n" + content, 0o755)
        else:
            put(path, content, 0o666)
    os.chmod(folder, 0o777)


def command_of(name, asked):
    """The words of a command that puts a row to a shell. Their PATH has neither of the programs."""
    words = [word for part in (LIMITS, NOBODY, SHELLS[name]) if part for word in (shutil.which(part[0]), *part[1:])]
    if asked.text is not None:
        return [*words, "-c", BEFORE.get(name, b"") + asked.text, "psh"]
    return [*words, b"." + asked.script] if asked.script else [*words, "-i"]


def by_shell(name, asked):
    """What a shell makes of a row, or None where it has no opinion."""
    is_typed = asked.text is None and asked.script is None
    if is_typed and asked.typed is None or asked.name() in ENDLESS.get(name, []):
        return None
    with tempfile.TemporaryDirectory(prefix="aliases-") as folder:
        lay(folder, asked.image)
        environment = {"PATH": f"{folder}/bin", "LC_ALL": "C", "HOME": folder, "PS1": "$ ", "PS2": "> ", "ENV": "/dev/null"}
        pipes = {it: subprocess.PIPE for it in ("stdin", "stdout", "stderr")}
        lines = [BEFORE.get(name, b""), *(it + b"\n" for it in asked.typed)] if is_typed else []
        with subprocess.Popen(command_of(name, asked), cwd=folder, env=environment, start_new_session=True, **pipes) as shell:
            try:
                for line in lines:
                    shell.stdin.write(line)
                    shell.stdin.flush()
                    time.sleep(PAUSE)
                out, err = shell.communicate(timeout=LONGEST)
            except (BrokenPipeError, subprocess.TimeoutExpired):
                with contextlib.suppress(ProcessLookupError):
                    os.killpg(shell.pid, signal.SIGKILL)
                return None
    said = NOISE.sub(b"", PROMPTS.sub(b"", err)) if is_typed else err
    # (behind a text that it refuses mksh ends with 1, the others with 2)
    is_told = asked.wanted.status is not None and name != "mksh"
    return Answer(out, shell.returncode if is_told else None, bool(said.strip()))


def verdict(wanted, found):
    """How the shells stand to a row."""
    opinions = [it for it in found.values() if it]
    fitting = sum(wanted.fits(it) for it in opinions)
    if not opinions:
        return "not asked"
    if fitting:
        return "agreed" if fitting == len(opinions) else "differing"
    return "against" if all(it.fits(opinions[0]) for it in opinions) else "alone"


def tell(asked, kind, why, found):
    because = f", since {why}" if why else ""
    print(f"line {asked.line}, {kind}{because}: {asked.name()}\n  row: {asked.wanted}")
    for name, it in found.items():
        print(f"  {name}: {'fits' if it and asked.wanted.fits(it) else it}")


def main(path, with_differences):
    missing = [it for it in SHELLS if not shutil.which(it)]
    if missing:
        sys.exit(f"not installed: {' '.join(missing)}")
    rows, counts, failed = [Asked.of(it) for it in read_rows(path)], collections.Counter(), 0
    reasons = {text: why for why, texts in REASONS.items() for text in texts}
    with concurrent.futures.ThreadPoolExecutor(2) as pool:
        results = list(pool.map(lambda asked: {name: by_shell(name, asked) for name in SHELLS}, rows))
    for asked, found in zip(rows, results):
        kind, why = verdict(asked.wanted, found), reasons.pop(asked.name(), None)
        counts[kind] += 1
        needs = kind in ("against", "alone")
        if needs != (why is not None):
            failed += 1
            print("no reason for" if needs else "a reason that isn't needed for", end=" ")
        if needs or why or with_differences and kind == "differing":
            tell(asked, kind, why, found)
    for text in reasons:
        failed += 1
        print(f"a reason for no row: {text}")
    print(f"{len(rows)} rows, {len(SHELLS)} shells: " + ", ".join(f"{number} {kind}" for kind, number in counts.items()))
    return 1 if failed else 0


if __name__ == "__main__":
    words = sys.argv[1:]
    if [it for it in words if it.startswith("-") and it != "--differences"] or len(words) > 2:
        sys.exit(__doc__)
    paths = [it for it in words if it != "--differences"]
    sys.exit(main(paths[0] if paths else f"{TOP}/crates/psh/rows-aliases", "--differences" in words))
