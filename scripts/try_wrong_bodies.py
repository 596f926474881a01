#!/usr/bin/env python3
"""Tries wrong bodies, many in one check: the prover has to refuse each.

usage: try_wrong_bodies.py [--compile] [--over FOLDER] [--jobs N] [--said FOLDER] [--with-gate] [--all | --since COMMIT | CRATE ..]

The folder wrong-bodies/CRATE holds edits in the form of those in crates/CRATE/must-fail, which the gate tries. Tried are those of
the crates that are named, of all crates, or of those that were touched since a commit (origin/main, where none is given); with
--with-gate the gate's edits too.

The prover judges a function by its own body and by the contracts of what it calls, and says of each function what it doesn't prove.
So one check can try an edit in each function. The edits of a crate are shared out in rounds, so that no two of a round stand in
one function. A round goes on over what the ones before it proved. Most of a check is the loading of what stands below, so this takes
a fraction of a check for each edit, which `rt must-fail` makes.

In a round an edit is refused where the prover says that something of its own function isn't proved; that the function calls another
one that isn't proved is not enough. What comes to no answer beside others is tried again, at last by itself, on the whole crate, where
any function may be refused for it. So is, from the start, an edit that stands in no function or in several.

An edit is told that is refused for no clause: where a proof names what the edit took away, or the prover doesn't cover the edited
function. It counts as refused, as with rt, and wants mending.

The libraries below a crate have to stand proved in FOLDER, a checkout of the same text in which `rt ci` has run, or `rt check` in the
crate's folder (this one, where none is given). So many crates are tried side by side as --jobs says (as there are processors). With
--said what the prover said in each check goes to a file, with the seconds since its begin. A crate whose edits were all refused is
noted, and isn't tried again over the same files. Ends with 1 where an edit isn't refused, can't be applied, or can't be tried.

With --compile nothing is proved: it tells sooner which edits don't compile, and so say nothing of a contract.
"""
import argparse
import concurrent.futures
import glob
import hashlib
import os
import re
import shutil
import subprocess
import sys
import tempfile
import time

import check_wrong_bodies
import proving
import sources

TOP = sources.TOP
EDITS = f"{TOP}/wrong-bodies"
# What the prover says of a function, and why.
VERDICT = re.compile(r"fn (\S+): (proved|no proof|not proved|could not tell)\b:? ?(.*)")
# Where the prover finds something wrong.
PLACE = re.compile(r"(?:note: )?(?:\./)?((?:src|specs|proofs)/\S+?):(\d+):\d+: (.*)")
# What the prover says of a goal that is open.
UNPROVED = re.compile(r"it is not proved that|error")
# The type behind `impl`, or the trait and the type.
OWNER = re.compile(r"(?:<.*> )?(?:(\w+)(?:<.*>)?|(\w+) for (\w+)(?:<.*>)?)")
# What is said of a proof that names what an edit took away.
NAMES = re.compile(r"has no field|is not in scope|has no `|was not admitted")
# What is said of a function that is asked for by a name that the prover doesn't have.
UNKNOWN = re.compile(r"has no function `([^`]+)`")
# What is said of a function whose proof the prover can't begin, whatever it does.
UNCOVERED = "does not cover this function"
REFUSED, WEAK, COMPILES, PROVED = "refused", "refused, but for no clause", "compiles", "NOT REFUSED"
BAD, UNSURE = "BAD EDIT", "no answer"


class Edit:
    """A wrong body of a crate: its name, why it can't be applied, if so, the functions in which it stands, the new texts of the files that it
    changes, and what came of it."""

    def __init__(self, path, folder):
        self.name, self.came = os.path.basename(path), None
        self.fault, self.stands, self.texts = check_wrong_bodies.apply(path, folder)

    def function(self):
        """The file and the name of the function in which it stands, if it stands in one alone whose name for the prover is known."""
        if len(self.stands) != 1:
            return None
        file, name = next(iter(self.stands))
        return (file, name) if name and path_of(name) else None

    def path_of_function(self):
        """The path of that function below the crate."""
        file, name = self.function()
        return "::".join([*modules_of(file), *path_of(name)])


def rounds_of(edits):
    """Shares edits out: none of a round stands in the function of another one of it, and what stands in no one function comes by itself."""
    rounds, left = [], [it for it in edits if it.function()]
    while left:
        taken = {}
        for edit in left:
            taken.setdefault(edit.function(), edit)
        rounds.append(list(taken.values()))
        left = [it for it in left if taken[it.function()] is not it]
    return rounds + [[it] for it in edits if not it.function()]


def modules_of(file):
    """The modules of a source."""
    parts = file.removesuffix(".rt").split("/")[1:]
    return [] if parts in (["lib"], ["main"]) else parts


def path_of(name):
    """The words of a function's name as the prover has it: the type of a method, with the trait behind it if it is one of a trait, and its
    own name. None where the trait has types of its own, which go into the name."""
    owner, _, function = name.rpartition("::")
    found = OWNER.fullmatch(owner)
    if not found:
        return None if owner else [function]
    return [found[3] + found[2] if found[3] else found[1], function]


class Answers:
    """What the prover said in one check."""

    def __init__(self, lines):
        self.lines = lines
        self.verdicts = [it for it in map(VERDICT.match, lines) if it]
        self.places = [it for it in map(PLACE.match, lines) if it]

    def is_whole(self):
        """Whether the prover came to a verdict."""
        return any(it.startswith(("logic=", "only=")) for it in self.lines)

    def of_any(self):
        """What came of an edit that was tried by itself."""
        failed = [it for it in self.verdicts if it[2] != "proved"]
        if failed and self.places and all(it[1].startswith("proofs/") and NAMES.search(it[3]) for it in self.places):
            return WEAK, self.places[0][0]
        uncovered = [it for it in failed if UNCOVERED in it[3]]
        if uncovered and not self.places:
            return WEAK, uncovered[0][0]
        if failed:
            return REFUSED, (self.places or failed)[0][0]
        return (PROVED, "") if re.match(r"logic=proved|only=(\d+) proved=\1$", self.lines[-1]) else (UNSURE, self.lines[-1])

    def of_function(self, crate, file, name, first, last):
        """What came of an edit of the function that stands in these lines of a source."""
        own = [it for it in self.places if it[1] == file and first <= int(it[2]) <= last and UNPROVED.search(it[3])]
        place = "/".join(["proofs", *modules_of(file), "(fn/)?" + "/".join(path_of(name)), ""])
        cited = [it for it in self.places if re.match(place, it[1])]
        strong = own + [it for it in cited if "error" in it[3] and not NAMES.search(it[3])]
        if strong:
            return REFUSED, strong[0][0]
        if cited:
            return WEAK, cited[0][0]
        names = "::".join([crate, *modules_of(file), "(fn::)?" + "::".join(path_of(name))]) + r"(::.*|\+.*)?"
        told = [it for it in self.verdicts if re.fullmatch(names, it[1])]
        if told and all(it[2] == "proved" for it in told):
            return PROVED, told[0][0]
        reasons = [it for it in told if "did not prove" in it[3]]
        return (REFUSED, reasons[0][0]) if reasons else (UNSURE, told[0][0] if told else "nothing was said of its function")


class Trial:
    """The edits of one crate, and a folder in which they are tried."""

    def __init__(self, crate, over, room, said):
        self.crate, self.over, self.room, self.said = crate, over, room, said
        # How many checks were made, and the seconds of a processor that they took.
        self.checks, self.seconds = 0, 0.0
        self.folder = f"{TOP}/crates/{crate}"

    def words(self, only):
        """The prover's command, for the functions of these paths, or for the whole crate."""
        kit, named, below = sources.kit(), sources.named_crates(), [it for it in sources.crates_below(self.crate) if it != self.crate]
        root = "src/main.rt" if os.path.isfile(f"{self.folder}/src/main.rt") else "src/lib.rt"
        words = [f"{kit}/bin/rattle", "check", "--crate-name", self.crate, root, "-L", f"dependency={kit}/rlibs"]
        for name in ["std", *named[self.crate]]:
            at = f"{self.over}/crates/{name}/out/rlib" if name in named else f"{kit}/rlibs"
            words += ["--extern", f"{name}={at}/{name}.rlib"]
        for name in below:
            words += ["-L", f"dependency={self.over}/crates/{name}/out/rlib"]
        logic = ["--antt-project", f"{kit}/rattle/logic/antt-project.json", "--logic-built", f"{kit}/logic_built"]
        words += [f"--only={it}" for it in only]
        return [*words, *logic, "--jobs", "1", "--progress", "--incremental", f"{self.room}/kept"]

    def lay_out(self, edits):
        """Puts the crate into the folder, with these edits."""
        for part in sources.PARTS:
            shutil.rmtree(f"{self.room}/{part}", ignore_errors=True)
            if os.path.isdir(f"{self.folder}/{part}"):
                shutil.copytree(f"{self.folder}/{part}", f"{self.room}/{part}")
        for edit in edits:
            for file, text in edit.texts.items():
                # Each new text is one line in the place of one line: the lines of its function are those of before.
                was, lines = check_wrong_bodies.read(f"{self.room}/{file}").split("\n"), text.split("\n")
                first, last = self.lines_of(edit) if edit.function() else (1, len(lines))
                with open(f"{self.room}/{file}", "w", encoding="utf-8") as it:
                    it.write("\n".join(was[: first - 1] + lines[first - 1 : last] + was[last:]))

    def check(self, edits, only):
        """Checks the functions of these paths, or the whole crate, with these edits."""
        self.checks += 1
        self.lay_out(edits)
        begun, said = time.time(), []
        how = {"stdin": subprocess.DEVNULL, "stdout": subprocess.PIPE, "stderr": subprocess.STDOUT, "text": True, "errors": "replace"}
        with subprocess.Popen(self.words(only), cwd=self.room, **how) as prover:
            for line in prover.stdout:
                said.append((time.time() - begun, line.rstrip("\n")))
            _, status, used = os.wait4(prover.pid, 0)
            prover.returncode = os.waitstatus_to_exitcode(status)
        self.seconds += used.ru_utime + used.ru_stime
        if self.said:
            with open(f"{self.said}/{self.crate}-{self.checks}", "w", encoding="utf-8") as it:
                it.writelines(f"{edit.name}\n" for edit in edits)
                it.writelines(f"{at:.1f} {line}\n" for at, line in said)
        return Answers([line for _, line in said])

    def lines_of(self, edit):
        """The first and the last line of the function in which an edit stands."""
        file, name = edit.function()
        text = check_wrong_bodies.read(f"{self.folder}/{file}")
        return next((it[0] + 1, it[1] + 1) for it in check_wrong_bodies.functions(text) if it[3] == name)

    def answer(self, edit, answers, is_alone):
        """What came of an edit."""
        if not answers.is_whole():
            wrong = [it for it in answers.places if "error[" in it[0] and (is_alone or self.stands_in(edit, it))]
            return (BAD, wrong[0][0]) if wrong else (UNSURE, next((it for it in answers.lines if "error" in it), "the check came to no verdict"))
        return answers.of_any() if is_alone else answers.of_function(self.crate, *edit.function(), *self.lines_of(edit))

    def stands_in(self, edit, place):
        """Whether a place is in the function in which an edit stands."""
        first, last = self.lines_of(edit)
        return place[1] == edit.function()[0] and first <= int(place[2]) <= last

    def attempt(self, edits, is_whole=False):
        """Tries edits in one check, notes what came of each, and gives what the prover answered."""
        answers = self.check(edits, [] if is_whole else [it.path_of_function() for it in edits])
        for edit in edits:
            edit.came = self.answer(edit, answers, len(edits) == 1)
        return answers

    def attempt_all(self, edits):
        """Tries edits together; those that came to no answer again, as long as that brings one. Each that isn't refused is then tried by
        itself, on the whole crate. So is one in a function whose name isn't known, as that of a method apart from its type's file."""
        left = [it for it in edits if it.function()]
        while left:
            answers = self.attempt(left)
            unknown = {name for line in answers.lines for name in UNKNOWN.findall(line)}
            unsure = [it for it in left if it.came[0] == UNSURE]
            if len(unsure) == len(left) and not unknown:
                break
            left = [it for it in unsure if it.path_of_function() not in unknown]
        for edit in edits:
            if not edit.function() or edit.came[0] in (UNSURE, PROVED):
                self.attempt([edit], True)

    def compile_all(self, edits):
        """Compiles edits together, without those that turn out not to compile."""
        left = edits
        while left:
            answers = self.check(left, [""])
            wrong = [(edit, it) for edit in left for it in answers.places if "error[" in it[0] and (len(left) == 1 or self.stands_in(edit, it))]
            for edit, place in wrong:
                edit.came = BAD, place[0]
            if answers.is_whole() or not wrong:
                break
            left = [it for it in left if not it.came]
        for edit in left:
            edit.came = edit.came or ((COMPILES, "") if answers.is_whole() else (UNSURE, answers.lines[-1]))

    def run(self, paths, compiles):
        """Tries or compiles all edits, tells what is wrong with any, and gives how many were refused, or do compile."""
        edits = [Edit(it, self.folder) for it in sorted(paths)]
        for edit in edits:
            if edit.fault:
                edit.came = BAD, edit.fault
        for those in rounds_of([it for it in edits if not it.fault]):
            (self.compile_all if compiles else self.attempt_all)(those)
        good = [it for it in edits if it.came[0] in (REFUSED, WEAK, COMPILES)]
        for edit in edits:
            if edit.came[0] not in (REFUSED, COMPILES):
                print(f"{self.crate}/{edit.name}: {edit.came[0]}: {edit.came[1][:300]}", flush=True)
        what = "compile" if compiles else "refused"
        print(f"{self.crate}: {len(good)} of {len(edits)} {what}, in {self.checks} checks and {self.seconds:.0f} s of a processor", flush=True)
        return len(good)


def touched_since(commit):
    """The crates of which a file differs from a commit's."""
    git = ["git", "-C", TOP]
    changed = subprocess.run([*git, "diff", "--name-only", commit], check=True, capture_output=True, text=True).stdout
    new = subprocess.run([*git, "ls-files", "--others", "--exclude-standard"], check=True, capture_output=True, text=True).stdout
    return sorted(set(re.findall(r"^(?:crates|wrong-bodies)/(\w+)/", changed + new, re.M)))


def edits_of(crate, with_gate):
    """The files of a crate's edits."""
    return glob.glob(f"{EDITS}/{crate}/*.edit") + (glob.glob(f"{TOP}/crates/{crate}/must-fail/*.edit") if with_gate else [])


def sum_of(crate, paths):
    """A sum of all on which the answers of a crate's edits depend, this script among them."""
    scripts = [f"scripts/{it}.py" for it in ("check_wrong_bodies", "try_wrong_bodies")]
    files = sources.files_of(sources.crates_below(crate), sources.PARTS) + scripts + [os.path.relpath(it, TOP) for it in paths]
    kit = subprocess.run(["rt", "version"], stdout=subprocess.PIPE, stderr=subprocess.STDOUT, text=True).stdout
    return hashlib.sha256((kit + sources.sums_of(sorted(files))).encode()).hexdigest()


def try_crate(crate, asked, kept):
    """Tries a crate's edits, or takes what is noted of them. Gives how many there are, and how many are as they should be."""
    paths = edits_of(crate, asked.with_gate)
    note, total = f"{kept}/tried-{crate}", sum_of(crate, paths)
    if not asked.compile and os.path.isfile(note) and check_wrong_bodies.read(note) == total:
        print(f"{crate}: {len(paths)} of {len(paths)} refused before, over the same files", flush=True)
        return len(paths), len(paths)
    lack = proving.lack_below(crate, asked.over)
    if lack:
        print(f"{crate}: not tried: {lack}", flush=True)
        return len(paths), 0
    with tempfile.TemporaryDirectory(prefix=f"wrong-bodies-{crate}-") as room:
        good = Trial(crate, asked.over, room, asked.said).run(paths, asked.compile)
    if not asked.compile and good == len(paths):
        with open(note, "w", encoding="utf-8") as it:
            it.write(total)
    return len(paths), good


def main():
    reader = argparse.ArgumentParser(usage=__doc__.split("usage: ", 1)[1])
    reader.add_argument("--over", type=os.path.abspath, default=TOP)
    reader.add_argument("--jobs", type=int, default=proving.processors())
    reader.add_argument("--said", type=os.path.abspath)
    reader.add_argument("--compile", action="store_true")
    reader.add_argument("--with-gate", action="store_true")
    reader.add_argument("--all", action="store_true")
    reader.add_argument("--since", default="origin/main")
    reader.add_argument("crates", nargs="*")
    asked = reader.parse_args()
    unknown = [it for it in asked.crates if it not in sources.crates_below_all()]
    if unknown:
        reader.error(f"there is no crate {unknown[0]}")
    crates = sources.crates_below_all() if asked.all else asked.crates or touched_since(asked.since)
    crates = sorted((it for it in crates if edits_of(it, asked.with_gate)), key=lambda it: -proving.lines_of(TOP, it))
    if not crates:
        print("none of these crates has wrong bodies" if asked.crates else "no crate with wrong bodies was touched")
        return 0
    with proving.cache_room() as kept, concurrent.futures.ThreadPoolExecutor(asked.jobs) as pool:
        counts = list(pool.map(lambda it: try_crate(it, asked, kept), crates))
    every, good = sum(it[0] for it in counts), sum(it[1] for it in counts)
    print(f"{good} of {every} {'compile' if asked.compile else 'refused'}")
    return 0 if good == every else 1


if __name__ == "__main__":
    sys.exit(main())
