"""Proves crates side by side where rt ci keeps nothing of what it passed, for ./build; and what scripts share with it."""
import concurrent.futures
import contextlib
import fcntl
import hashlib
import os
import re
import shutil
import signal
import subprocess
import threading

import sources


def gate_keeps():
    """Whether this toolchain's rt ci keeps what it passed, takes the names of crates, and takes --anew for a run from nothing."""
    ran = subprocess.run(["rt", "help"], stdout=subprocess.PIPE, stderr=subprocess.STDOUT, text=True, errors="replace")
    return "--anew" in ran.stdout


def processors():
    """How many processors there are to use."""
    return len(os.sched_getaffinity(0))


def lines_of(repository, crate):
    """How many lines a crate has, which is about what its proof costs."""
    count = 0
    for part in sources.PARTS:
        for place, _, names in os.walk(f"{repository}/crates/{crate}/{part}"):
            for name in names:
                with open(f"{place}/{name}", "rb") as it:
                    count += it.read().count(b"\n")
    return count


def longest_ways(repository, crates):
    """What each of the crates stands on, of these, and the lines on the longest way from it up."""
    below = {it: [dep for dep in sources.crates_below(it) if dep in crates and dep != it] for it in crates}
    ways = {it: lines_of(repository, it) for it in crates}
    own = dict(ways)
    # A crate comes behind all that it stands on.
    for crate in sorted(crates, key=lambda it: -len(below[it])):
        for dep in below[crate]:
            ways[dep] = max(ways[dep], own[dep] + ways[crate])
    return below, ways


def lack_below(crate, over):
    """What is lacking in a checkout for a check of a crate over the libraries that are built there; None where the crates below have the same
    text there as here, and are built of it."""
    for below in sources.crates_below(crate):
        if below == crate:
            continue
        library = f"{over}/crates/{below}/out/rlib/{below}.rlib"
        files = sources.files_of([below], sources.PARTS)
        if files != sources.files_of([below], sources.PARTS, over) or sources.sums_of(files) != sources.sums_of(files, over):
            return f"{below} isn't the same in {over}"
        if not os.path.isdir(library) or any(os.stat(f"{over}/{it}").st_mtime > os.stat(library).st_ctime for it in files):
            return f"{below} isn't built in {over}, or has changed since: run rt ci there, or rt check in crates/{crate}"
    return None


@contextlib.contextmanager
def cache_room():
    """A folder that stays, for what is proved and tried of this repository. One run at a time has it, of ./build or of
    scripts/try_wrong_bodies.py; another one waits."""
    cache = os.environ.get("XDG_CACHE_HOME") or os.path.expanduser("~/.cache")
    room = f"{cache}/psh/{hashlib.sha256(sources.TOP.encode()).hexdigest()[:16]}"
    os.makedirs(room, exist_ok=True)
    with open(f"{room}.lock", "w", encoding="utf-8") as lock:
        fcntl.flock(lock, fcntl.LOCK_EX)
        yield room


class Stopped(Exception):
    """A crate isn't proved: its name, and the prover's first message."""


def first_message(lines):
    """The first message of the prover among what was said of a crate."""
    return next((line for line in lines if re.search(r"\berror\b|it is not proved", line)), lines[0] if lines else "")


def link(file, to):
    """Gives a file a second name, or copies it where that can't be."""
    try:
        os.link(file, to)
    except OSError:
        shutil.copy2(file, to)


def link_folder(folder, to):
    """Gives all files of a folder, as far as it is there, second names in another, which is made anew."""
    shutil.rmtree(to, ignore_errors=True)
    if os.path.isdir(folder):
        shutil.copytree(folder, to, copy_function=link)


class Proofs:
    """Proofs of the crates of a repository. rt locks the crate that it works at and all below, so each crate has a folder in `room`
    with itself and what it stands on; what is proved there is taken from there the next time."""

    def __init__(self, repository, room, tell):
        self.repository, self.room, self.tell = repository, room, tell
        self.running, self.lock, self.is_over = set(), threading.Lock(), False

    def folder(self, crate):
        """The folder in which a crate is proved."""
        return f"{self.room}/{crate}/crates/{crate}"

    def stamp(self, crate):
        """When a library was built, or None."""
        try:
            return os.stat(f"{self.folder(crate)}/out/rlib/stamp").st_mtime_ns
        except FileNotFoundError:
            return None

    def take(self, repository):
        """Takes the libraries that stand built in a repository, where none is kept here; of other sources they are made anew."""
        for crate in os.listdir(f"{repository}/crates"):
            if self.stamp(crate) is None and os.path.isfile(f"{repository}/crates/{crate}/out/rlib/stamp"):
                link_folder(f"{repository}/crates/{crate}/out/rlib", f"{self.folder(crate)}/out/rlib")

    def lay_out(self, crate):
        """Makes a crate's folder as the repository has it, with the libraries below it."""
        top, crates = f"{self.room}/{crate}", sources.crates_below(crate)
        os.makedirs(f"{top}/.git", exist_ok=True)
        sources.put_names(crates, top)
        for below in crates:
            for part in sources.PARTS:
                link_folder(f"{self.repository}/crates/{below}/{part}", f"{top}/crates/{below}/{part}")
            if below != crate:
                link_folder(f"{self.folder(below)}/out/rlib", f"{top}/crates/{below}/out/rlib")

    def run(self, folder, words):
        """Runs a command in a folder, and gives its status and what it said."""
        with self.lock:
            if self.is_over:
                return 1, []
            how = {"stdin": subprocess.DEVNULL, "stdout": subprocess.PIPE, "stderr": subprocess.STDOUT, "text": True, "errors": "replace"}
            running = subprocess.Popen(words, cwd=folder, start_new_session=True, **how)
            self.running.add(running)
        said = running.communicate()[0].splitlines()
        with self.lock:
            self.running.discard(running)
        return running.returncode, said

    def library(self, crate):
        """Proves one library."""
        before = self.stamp(crate)
        self.lay_out(crate)
        status, said = self.run(self.folder(crate), ["rt", "lib", "--jobs", "1"])
        if status:
            raise Stopped(crate, first_message(said))
        self.tell(crate, "was proved before" if before is not None and self.stamp(crate) == before else "proved")

    def libraries(self, crates, jobs):
        """Proves libraries, so many side by side, the longest way up first. Raises Stopped at the first that isn't proved."""
        below, ways = longest_ways(self.repository, crates)
        left, begun, done = sorted(crates, key=lambda it: -ways[it]), {}, set()
        with concurrent.futures.ThreadPoolExecutor(jobs) as pool:
            try:
                while left or begun:
                    ready = [it for it in left if done.issuperset(below[it])]
                    for crate in ready[: jobs - len(begun)]:
                        left.remove(crate)
                        begun[pool.submit(self.library, crate)] = crate
                    for it in concurrent.futures.wait(begun, return_when=concurrent.futures.FIRST_COMPLETED).done:
                        done.add(begun.pop(it))
                        it.result()
            finally:
                self.end()

    def program(self, crate):
        """Proves and builds a program over libraries that are proved, and gives its path."""
        self.lay_out(crate)
        status, said = self.run(self.folder(crate), ["rt", "run", "--", "--help"])
        if status:
            raise Stopped(crate, first_message(said))
        self.tell(crate, "proved")
        return f"{self.folder(crate)}/out/{crate}"

    def end(self):
        """Ends what still runs."""
        with self.lock:
            self.is_over = bool(self.running)
            for it in self.running:
                os.killpg(it.pid, signal.SIGTERM)
