#!/usr/bin/env python3
"""Reads texts made at random by `sh_parse` and by real shells, and shows those in which psh stands alone.

usage: compare_grammar.py [COUNT [SEED]]

Most texts are lists of commands of the whole grammar, with here-documents and substitutions inside one another, in which
up to two tokens are then dropped, doubled, put elsewhere or exchanged for others; some are tokens at random. A text is read
whole, or unfinished where the input ends, or refused before that. Each shell reads it with -n, so nothing is run. Where a
token is refused, the lines that the shells name are compared too, but not where it is a newline or may hold one, since some
name the line behind it.

Shown is a text where no shell has the answer of psh, or where all but one agree on another; and one whose token is refused
on a line that none of them names. Left out is what the shells are known to do otherwise: `${..}` that asks for nothing is
theirs to tell when it is expanded, and a text between backquotes some don't read before it runs, or not to its end. What may
be shown: a quote that never closes they tell even where psh refuses a token before it. There is no `;&` in the texts, which
psh doesn't have yet. The shells are those of dash, bash, yash, mksh and busybox that are installed; they run as nobody, in a
folder of their own. The reader is run on copies of its crates by `rt try`, without proof.
"""
import os
import random
import re
import shutil
import subprocess
import sys
import tempfile

TOP = os.path.dirname(os.path.dirname(os.path.abspath(__file__)))
SHELLS = [["dash", "-n"], ["bash", "--posix", "-n"], ["yash", "-o", "posixly-correct", "-n"], ["mksh", "-n"],
          ["busybox", "ash", "-n"]]
NOBODY = [] if os.geteuid() else ["setpriv", "--reuid=65534", "--regid=65534", "--clear-groups", "--no-new-privs"]
READER = "sh_parse"
BATCH = 1500

# Reads the texts of its input, each ended by a byte 1, command after command, and prints a line for each: how many bytes
# went before the last reading, and what that is; the place of its fault is counted from there.
DRIVER = r"""#![tactic(auto)]

use sh_parse::{Aliases, Reading, read_command};
use std::alloc::Global;
use std::io;
use std::io::Read;

fn tell(rt: &HostRuntime, alloc: Global, text: &[u8]) -> io::Result<()> {
    let mut rest = text;
    let mut at = 0usize;
    for _ in 0..text.len() + 1 {
        let used = match read_command(alloc, rest, true, &Aliases::new(alloc)) {
            Ok(Reading::Complete { used, .. }) => used,
            Ok(Reading::Blank { used }) => used,
            Ok(Reading::More) => return println!(rt; "{at} more"),
            Err(fault) => return println!(rt; "{at} {fault}"),
        };
        at += used;
        rest = rest.get(used..).unwrap_or(b"");
        if rest.is_empty() {
            break;
        }
    }
    println!(rt; "{at} read")
}

fn main(rt: HostRuntime) -> io::Result<()> {
    let mut all = Vec::new(rt.alloc());
    rt.reader().read_to_end(&mut all)?;
    let mut start = 0usize;
    for (place, byte) in all.iter().enumerate() {
        if *byte == 1 {
            tell(&rt, rt.alloc(), all.get(start..place).unwrap_or(b""))?;
            start = place + 1;
        }
    }
    Ok(())
}
"""

# What each shell says of a text that ends too early, and the line of a token that it refuses.
UNFINISHED = re.compile(r"end of file|unexpected EOF|EOF in |[Uu]nterminated|[Mm]issing '|no closing quote|unmatched '")
AT_LINE = re.compile(r"(?:line |: |\[)(\d+)[]:]")
# A token that may end on another line than it begins.
SPANS_LINES = re.compile(r"""\n|[^ \n]*["'`$\\]""")
BACKQUOTES = re.compile(r"[^ \n]*`")


class Texts:
    """Texts of the whole grammar as lists of tokens, and what becomes of them by mistakes."""

    strangers = """a b x=1 if then else elif fi do done while until for in case esac { } ! ( ) ; ;; & & && || | < f > 2>
        x $(a) ` " ' ${x () <<E""".split() + ["\n", "\n", "# c\n", "\\\n"]
    arguments = "a b c echo x in then do 1 if esac for !x x=1 = a= fi done else".split()
    quoted = ["'a b'", '"if"', "\\if", "'('", "\\;", '"a\nb"', "i\\\nf"]
    parameters = ["${x}", "$x", "${x-a b}", "${x:-$(b)}", "$((1+2))", '"${x}"', "${x#'}'}"]

    def __init__(self, seed):
        self.random = random.Random(seed)
        self.pick, self.chance = self.random.choice, self.random.random

    def word(self, depth):
        kind = self.chance()
        if depth > 0 and kind < 0.17:
            inner = self.text(self.commands(depth - 1 if kind < 0.13 else 0))
            inner = inner if "<<" in inner else inner.rstrip("\n")
            return f"$({inner})" if kind < 0.07 else f'"a $({inner}) b"' if kind < 0.13 else f"`{inner}`"
        if kind < 0.7:
            return self.pick(self.arguments)
        return self.pick(self.quoted if kind < 0.78 else self.parameters if kind < 0.86 else ["a", "b"])

    def redirection(self):
        number = self.pick(["", "", "", "2", "10"])
        if self.chance() < 0.8:
            return [number + self.pick(["<", ">", ">>", "<&", ">&", ">|", "<>"]), self.pick(["f", "1", "-"])]
        return [number + self.pick(["<<", "<<-"]), self.pick(["E", "'E'", "F"])]

    def simple(self, depth):
        tokens = [self.pick(["x=1", "y=", "z=$(a)"]) for _ in range(self.pick([0, 0, 0, 1]))]
        tokens += self.redirection() if self.chance() < 0.15 else []
        tokens.append(self.pick(["a", "echo", "b", "ls", ":"]))
        tokens += [self.word(depth) for _ in range(self.pick([0, 0, 1, 1, 2]))]
        return tokens + (self.redirection() if self.chance() < 0.15 else [])

    def breaks(self):
        return ["\n"] * self.pick([0, 0, 0, 1])

    def separator(self):
        return self.pick([[";"], ["\n"], ["&"], [";", "\n"], ["&", "\n"], ["\n", "\n"]])

    def commands(self, depth, ended=None):
        tokens, count = self.breaks(), self.pick([1, 1, 1, 2, 3])
        for place in range(count):
            tokens += (self.separator() if place else []) + self.and_or(depth)
        ended = self.chance() < 0.4 if ended is None else ended
        return tokens + (self.separator() if ended else [])

    def and_or(self, depth):
        tokens = self.pipeline(depth)
        for _ in range(self.pick([0, 0, 0, 0, 1, 2])):
            tokens += [self.pick(["&&", "||"])] + self.breaks() + self.pipeline(depth)
        return tokens

    def pipeline(self, depth):
        tokens = ["!"] * self.pick([0, 0, 0, 0, 0, 1]) + self.command(depth)
        for _ in range(self.pick([0, 0, 0, 0, 1])):
            tokens += ["|"] + self.breaks() + self.command(depth)
        return tokens

    def command(self, depth):
        if depth <= 0 or self.chance() < 0.45:
            return self.simple(depth)
        tokens = self.compound(depth - 1)
        if self.chance() < 0.12:
            tokens = [self.pick(["f", "g", "foo"]), "(", ")"] + self.breaks() + tokens
        for _ in range(self.pick([0, 0, 0, 0, 1])):
            tokens += self.redirection()
        return tokens

    def compound(self, depth):
        body = lambda: self.commands(depth, True)
        kind = self.pick(["group", "subshell", "if", "loop", "for", "case", "case"])
        if kind == "group":
            return ["{", *body(), "}"]
        if kind == "subshell":
            return ["(", *self.commands(depth), ")"]
        if kind == "if":
            tokens = ["if", *body(), "then", *body()]
            for _ in range(self.pick([0, 0, 1])):
                tokens += ["elif", *body(), "then", *body()]
            return tokens + (["else", *body()] if self.chance() < 0.3 else []) + ["fi"]
        if kind == "loop":
            return [self.pick(["while", "until"]), *body(), "do", *body(), "done"]
        return self.for_loop(depth, body) if kind == "for" else self.case(depth)

    def for_loop(self, depth, body):
        tokens, kind = ["for", self.pick(["x", "i", "in", "if"])], self.chance()
        if kind < 0.2:
            tokens += self.breaks()
        elif kind < 0.35:
            tokens += [";"] + self.breaks()
        else:
            words = [self.word(depth) for _ in range(self.pick([0, 1, 2]))]
            tokens += self.breaks() + ["in", *words, self.pick([";", "\n"])] + self.breaks()
        return tokens + ["do", *body(), "done"]

    def case(self, depth):
        tokens, count = ["case", self.word(depth), *self.breaks(), "in", *self.breaks()], self.pick([0, 1, 1, 2])
        for place in range(count):
            tokens += ["("] * self.pick([0, 1]) + [self.pick(["a", "b", "*", "?", "x", "'q'", "[ab]", "if", "in"])]
            for _ in range(self.pick([0, 0, 1])):
                tokens += ["|", self.pick(["c", "d", "esac"])]
            last = place + 1 == count and self.chance() < 0.4
            tokens += [")"] + (self.commands(depth, last or None) if self.chance() < 0.7 else self.breaks())
            tokens += [] if last else [";;", *self.breaks()]
        return tokens + ["esac"]

    def with_mistakes(self, tokens):
        for _ in range(self.pick([0, 1, 1, 1, 2])):
            place, kind = self.random.randrange(len(tokens) + 1), self.pick(["drop", "add", "put", "swap", "cut", "double"])
            if kind == "add" or place == len(tokens):
                tokens = tokens[:place] + [self.pick(self.strangers)] + tokens[place:]
            elif kind == "drop":
                tokens = tokens[:place] + tokens[place + 1:]
            elif kind == "put":
                tokens = tokens[:place] + [self.pick(self.strangers)] + tokens[place + 1:]
            elif kind == "cut":
                tokens = tokens[:place]
            elif kind == "swap":
                other = self.random.randrange(len(tokens))
                tokens[place], tokens[other] = tokens[other], tokens[place]
            else:
                tokens = tokens[:place] + [self.pick(tokens)] + tokens[place:]
        return tokens

    def text(self, tokens):
        """The tokens with blanks between them, and the bodies that are due behind each newline."""
        text, due, before = "", [], ""
        for token in tokens:
            tight = token in ["(", ")", ";", "&", "|", ";;", "&&", "||"] and text[-1:] not in ";&|" and self.chance() < 0.3
            text += "" if not text or text[-1] == "\n" or token == "\n" or tight else " "
            text += token
            if token == "<<E" or re.fullmatch(r"\d*<<-?", before):
                due.append((before.endswith("-"), "E" if token == "<<E" else token.strip("'\"")))
            before = token
            if token == "\n":
                text += "".join(self.document(*one) for one in due)
                due = []
        return text + "\n" + "".join(self.document(*one) for one in due)

    def document(self, strips_tabs, end):
        body = self.pick(["", "body $x\n", "$(a)\n", "a line\n"])
        return body + self.pick(["", "\t"] if strips_tabs else [""]) + end + "\n"

    def one(self):
        if self.chance() < 0.75:
            return self.text(self.with_mistakes(self.commands(self.pick([1, 2, 2, 3]))))
        return self.text([self.pick(self.strangers) for _ in range(self.pick(range(1, 9)))])

    def several(self, count):
        texts = []
        while len(texts) < count:
            text = self.one()
            if len(text) <= 400 and text not in texts:
                texts.append(text)
        return texts


def copy_of_crates(folder):
    """Copies the reader's crates, and those that they use, beside the program that reads texts."""
    with open(f"{TOP}/crates.txt") as file:
        lines = dict(line.split(":", 1) for line in file.read().splitlines() if ":" in line)
    wanted, names = [READER], []
    while wanted:
        name = wanted.pop()
        if name in lines and name not in names:
            names.append(name)
            wanted += lines[name].split()
    for name in names:
        for part in ["src", "specs", "proofs"]:
            if os.path.isdir(f"{TOP}/crates/{name}/{part}"):
                shutil.copytree(f"{TOP}/crates/{name}/{part}", f"{folder}/crates/{name}/{part}")
    os.makedirs(f"{folder}/crates/reads/src")
    os.makedirs(f"{folder}/crates/reads/specs")
    uses = {"reads": f" {READER}{lines[READER]}", **{name: lines[name] for name in names}}
    crates = "".join(f"{name}:{used}\n" for name, used in uses.items())
    for path, text in [("crates/reads/specs/Lib.antt", ""), ("crates/reads/src/main.rt", DRIVER), ("crates.txt", crates)]:
        with open(f"{folder}/{path}", "w") as file:
            file.write(text)
    subprocess.run(["git", "init", "-q", folder], check=True)


def read_by_us(folder, texts):
    """What the reader answers to each text: its kind, and the line of a refused token."""
    stdin = "".join(text + "\1" for text in texts)
    ran = subprocess.run(["rt", "try", "--seconds", "900"], cwd=f"{folder}/crates/reads", input=stdin, capture_output=True,
                         text=True)
    told = re.findall(r"^(\d+) (read|more|syntax error at byte (\d+)|end of input.*|bad subst.*|nested.*)$", ran.stdout, re.M)
    if len(told) != len(texts):
        sys.exit(ran.stdout[-1000:] + ran.stderr[-1000:])
    for text, (start, answer, at) in zip(texts, told):
        if at:
            place = int(start) + int(at)
            kind = "refused in backquotes" if BACKQUOTES.match(text, place) else "refused"
            yield kind, None if SPANS_LINES.match(text, place) else text[:place].count("\n") + 1
        else:
            yield {"read": "read", "end": "unfinished"}.get(answer.split()[0], answer), None


def read_by(shell, folder):
    """What a shell answers to the text in the folder: its kind, and the line that it names."""
    try:
        ran = subprocess.run([*NOBODY, *shell, "text"], cwd=folder, stdin=subprocess.DEVNULL, capture_output=True, text=True,
                             timeout=10)
    except subprocess.TimeoutExpired:
        return "no answer", None
    if ran.returncode == 0 and "rror" not in ran.stderr:
        return "read", None
    if shell[0] == "yash":
        return "refused or unfinished", None
    lines = [line for line in ran.stderr.splitlines() if "warning" not in line]
    line = AT_LINE.search(lines[0]) if lines else None
    if UNFINISHED.search(ran.stderr):
        return "unfinished", None
    return "refused", int(line.group(1)) if line else None


def stands_alone(ours, told):
    """Whether no shell, or one against all others, has our answer, or none our line."""
    agreeing = [theirs for theirs in told if ours[0] in theirs[0]]
    others = {theirs[0] for theirs in told if theirs not in agreeing}
    if len(agreeing) <= 1 < len(told):
        return not agreeing or len(others) == 1
    lines = [theirs[1] for theirs in agreeing if theirs[1] is not None]
    return ours[1] is not None and lines != [] and ours[1] not in lines


def main():
    count = int(sys.argv[1]) if len(sys.argv) > 1 else BATCH
    texts = Texts(int(sys.argv[2]) if len(sys.argv) > 2 else 1)
    shells = [shell for shell in SHELLS if shutil.which(shell[0])]
    work, shown, kinds = tempfile.mkdtemp(), 0, {"read": 0, "unfinished": 0, "refused": 0}
    os.chmod(work, 0o755)
    copy_of_crates(f"{work}/psh")
    while sum(kinds.values()) < count:
        batch = texts.several(min(BATCH, count - sum(kinds.values())))
        for text, ours in zip(batch, read_by_us(f"{work}/psh", batch)):
            if ours[0] not in kinds:
                continue
            kinds[ours[0]] += 1
            with open(f"{work}/text", "w") as file:
                file.write(text)
            told = [read_by(shell, work) for shell in shells]
            if stands_alone(ours, told):
                shown += 1
                print(f"== psh: {ours}", *(f"{shell[0]}: {theirs}" for shell, theirs in zip(shells, told)), sep=", ")
                print(text, flush=True)
    shutil.rmtree(work)
    print(", ".join(f"{number} {kind}" for kind, number in kinds.items()) + f": {shown} shown")


if __name__ == "__main__":
    main()
