#!/usr/bin/env python3
"""Refuses each growth of memory in turn in the built program, for some scripts and typed sessions, or for rows.

usage: refuse_growth.py [typed | rows FILE EVERY] [PROGRAM]

Each run must answer as with ample memory, or with 3, `psh: out of memory` and the terminal's bytes after some of the events. With the word
`typed` there are only the sessions. With `rows` there is every EVERY-th row of a file that `run_psh_rows.py` runs, of those that end with
status 0, and without a report. Needs a C compiler, and psh built (./build), or a path to it as the last word.
"""
import concurrent.futures
import itertools
import os
import subprocess
import sys
import tempfile

import run_psh_rows

SHIM = r"""
#define _GNU_SOURCE
#include <errno.h>
#include <stddef.h>
#include <stdlib.h>
static long left = -1;
static int known = 0;
static int refuse(void) {
    if (!known) { char *n = getenv("REFUSE"); known = 1; if (n) left = atol(n); }
    if (left > 0 && --left == 0) { errno = ENOMEM; return 1; }
    return 0;
}
void *__libc_malloc(size_t); void *__libc_calloc(size_t, size_t);
void *__libc_realloc(void *, size_t); void *__libc_memalign(size_t, size_t);
void *malloc(size_t n) { return refuse() ? NULL : __libc_malloc(n); }
void *calloc(size_t a, size_t b) { return refuse() ? NULL : __libc_calloc(a, b); }
void *realloc(void *p, size_t n) { return refuse() ? NULL : __libc_realloc(p, n); }
void *aligned_alloc(size_t a, size_t n) { return refuse() ? NULL : __libc_memalign(a, n); }
int posix_memalign(void **p, size_t a, size_t n) {
    if (refuse()) return ENOMEM;
    *p = __libc_memalign(a, n);
    return *p ? 0 : ENOMEM;
}
"""

ROWS = [
    ("echo 'a  b'; x=1; echo $x $?", 8),
    ("exit 3", 3),
    ("echo a | cat & ! : & wait $!; f() { wait $1 9; echo $?; }; (exit 3) & f $!; { echo b; } & wait", 80),
    ("exit 256", 4),
    ("echo a; fi", 3),
    ("echo a  \"b  c\" 'd'\\ e", 5),
    ("echo ok\nfi", 6),
    ("echo ok; if", 3),
    ("echo a", 5),
    ("nosuch; x=a y=$x; echo \"$y\"$?", 16),
    ("echo a | cat", 15),
    ("yes | head -n 1; echo $?", 30),
    ("x=$(echo a; echo; echo); echo \"[$x]\"", 24),
    ("cat </none; echo $?", 14),
    ("cat <<E >f; cat <f\n$((1+1))\nE\n", 30),
    ("x=1 y=$(cat <in) nosuch 2>f; echo $? >>f; cat <f", 50),
    ("! two a 'b c' | having b", 50),
    ("echo a >/bin; echo $?", 8),
    ("echo ok\n( echo \"${a-$(b\"", 6),
    ("echo ok\necho `echo ${a-$(b`", 6),
    ("echo ok\ncat <<E\n$x${a-$(b\nE\n", 6),
    ("false && echo a || { echo b; (echo c; exit 3); } && ! : || echo $?", 30),
    ("for i in a b; do if (exit 1); then :; elif false; then :; else echo $i; fi; until :; do :; done; continue; done", 60),
    ("x=; while ! echo $x | having aa; do x=a$x; for i do break 2; done; while :; do break; done; done", 120),
    ("case $(echo a) in b|\"$(echo c)\") echo no;; ${x:=a}*) (echo $x; exit 3) >f;; esac; cat <f", 60),
    ("for i in a b; do case $i in [!b]) (cat; echo $i) <in 2>&1; continue;; esac; break; done >f 3<<E 2>&3\n$i\nE\ncat <f", 60),
    ("export x=1 y='a b' z; readonly v=$y; export -p; readonly v=2; echo no", 20),
    ("f() { shift; echo \"$*\"; return 3; } >&2; x=1 f a 'b c' || echo $?; f() (g() { echo c; }; g); f | cat; unset -f f; f", 70),
    ("x=1; for i in a b; do eval 'eval \"echo $x\"' b $i 2>&1; eval break; done >f; cat <f; eval 'echo c\nfi'", 50),
    ("trap 'echo t $?; trap; trap - INT HUP; exit 4' 0; trap \"it's\" INT; trap '' HUP; trap >f; cat <f; (trap); exit 3", 30),
    ("f() { trap \"echo $1 \\$?\" EXIT; exit $2; } >g; (f a 3) || x=$(trap 'cat <g; false; exit' EXIT; exit 5) || echo $? $x; echo b | { trap 'cat' EXIT; return 6; }", 54),
    ("set -e; trap 'eval \"f $?\"\nfalse; echo no' EXIT; f() { cat <<E; }\n$1 $#\nE\nset a b; { trap : KILL none; } 2>f", 27),
    ("set a 'b c'; . two; f() { . /tabs; . two; return 3; }; f || x=$(. two) || . none; echo no", 60),
    ("IFS=:; while read -r x y; do echo \"[$x] [$y]\"; done <<E\na\\b:c:d\n e\nE\ncommand export v=1 w; command -v cat ./two; x=1 command eval fi; x=1 command exec 3>f; { exec 4>g; } 2>h; command exec none; echo $?", 110),
    ("read a b; readonly r; read x r; command -v ./two; command -v echo; command . none; command exec echo b$a", 60),
    ("exec 3>f 4<in; (exec cat <&4) | exec having b >&3; exec 3>&-; cat <f; trap 'echo t' EXIT; (x=1 exec two c); x=1 exec none 2>&1", 70),
    ("trap 'echo \"a $?\"' USR1; trap '' USR2; (kill -s USR1 $$; kill -USR2 $$ 0 none); kill -0 $$ 999 || echo $?; for i in a b; do kill -s USR1 $$; echo $i; done | cat", 50),
    ("trap 'trap \"echo b\" USR2; x=$(kill -s USR2 $$); echo a' USR1; yes >/dev/null & y=$!; (kill -s USR1 $$) & wait $y; echo $?; kill -s STOP $y; kill -CONT $y; kill $y; wait $y 2>f; echo $?; trap 'exit 4' TERM; kill $$; echo no", 70),
    ("while :; do :; done & (exit 3) | { exit 4; } & jobs; jobs -l %1 %9 %?exit >f; wait %2 %7 %x; echo $?; kill -s STOP %1; jobs; kill -s CONT %1 %8; x=$(: & jobs); echo \"$x\"; kill %%; wait %1; echo $?; jobs", 150),
    ("trap 'echo t' USR1; while :; do :; done & (kill -s USR1 $$) & wait %7 %1 2>f; echo $?; f() { : & wait %?:; jobs; }; f; (: & : & jobs -p %+); kill %1 %2", 120),
    ("set -m; ! { kill -s STOP 0; echo a; } | cat; echo $?; jobs -l; kill -s CONT %1; wait %1; echo $?; f() (kill -s STOP 0; exit 3); f 2>f; echo $?; kill -s CONT %1; wait %1; echo $?; cat <f", 120),
    ("set -m; cat & (trap '' TTIN; cat) & wait $!; echo $?; jobs; kill %1; kill -s CONT %1; wait %1; echo $?; x=$(cat <in) cat </none; yes | head -n 1", 100),
    ("set -m; { kill -s STOP 0; echo a; } | cat; fg; echo $?; f() (kill -s STOP 0; kill -s STOP 0; exit 3); f 3>g; fg %f >&-; echo $?; fg; echo $?; fg %1 2>f; wait %1; cat <f", 80),
    ("set -m; (kill -s STOP 0; exit 3); ! { kill -s STOP 0; echo a; } | cat; bg %9 %1 %2 %?x; jobs; wait %1; echo $?; wait %2; echo $?; (kill -s STOP 0; exit 4) 2>f; bg %7 %1 >&-; wait %1; echo $?; bg 2>f; cat <f", 80),
]

# scripts of the image that the shell runs, and their turns
SCRIPTS = [("/empty", 2), ("/tabs", 16)]

# Typed sessions of an interactive shell. A number is so many turns, each byte of a text a key.
SESSIONS = [
    # commands, one that isn't there, a key taken back, two lines at once; the end of input
    [2, "echo a  'b c'\n", 6, "x=1 nosuchh\x7f $?\n", 12, "echo $?\n:;:\n", 12, "\x04", 3],
    # jobs in the background that are told at the prompt, done and killed
    [2, "(exit 3) & f() { :; }; f & jobs\n", 26, "\n", 8, "yes >/dev/null &\n", 12, "kill %1\n", 12, "jobs; exit 4\n", 10],
    # a program and a pipeline that are stopped by a key and go on in the foreground; one is left stopped at the shell's end
    [2, "cat\n", 9, "ab\n", 4, "\x1a", 4, "jobs -l; echo $?\n", 10, "fg\n", 6, "c\n", 4, "\x04", 6, "cat\n", 9, "\x1a", 6, "\x04", 3],
    [2, "cat | having a >f\n", 16, "ab\nb\n", 9, "\x1a", 5, "fg >&2\n", 8, "a\n", 6, "\x1a", 5, "cat <f; kill %1; bg\n", 22, "\x04", 3],
    # jobs in the background that read the terminal
    [2, "cat & cat | cat &\n", 26, "\n", 8, "bg; fg %1\n", 16, "oak\n", 4, "\x04", 6, "kill -s KILL %2\n", 8, "\n", 6, "\x04", 3],
    # INT at the prompt, in a line, in commands, in a substitution, in a read, where there is no job control, and before PS2; QUIT
    [2, "\x03", 4, "echo a\x03", 4, "while :; do :; done; echo no\n", 9, "\x03", 4, "echo $?\n", 6, "cat | cat; echo no\n", 14, "\x03", 6, "\x04", 3],
    [2, "x=$(cat); echo no\n", 12, "\x03", 8, "read x; echo no\n", 5, "ab\x03", 4, "f() { eval 'cat'; }\nf >f 2<&1\n", 18, "\x1c", 8, "exit\n", 6],
    [2, "set +m\n", 5, "(cat); echo no\n", 12, "\x03", 6, "yes >/dev/null & wait; echo no\n", 16, "\x03", 12, "echo $?\n", 6, "\x04", 3],
    [2, "if :; then\n", 4, "\x03", 4, "echo 'a\n", 4, "b\x03", 4, "cat <<E\n", 4, "a\n", 4, "\x03", 4, "echo $?\n", 6, "\x04", 3],
    # commands that are complete after some lines, and some that the end of input leaves incomplete
    [2, "for i in a b\n", 4, "do echo $i \\\n", 4, "'c\n", 4, "d'; done\n", 16, "\x04", 3],
    [2, "f() {\n", 4, "echo \"$(echo\n", 4, "echo $1)\"; }\n", 6, "f b\n", 20, "\x04", 3],
    [2, "echo a &&\n", 4, "\x04", 4, "echo b; case $x in\n", 4, "\x04", 4, "cat <<E\n", 4, "b", 2, "\x04\x04", 12, "\x04", 3],
    # here-documents
    [2, "cat <<E; echo $?\n", 4, "a $((1+1))\n", 4, "E\n", 16, "cat <<-'F' <<E | cat\n", 4, "\t$x\n", 4, "\tF\n", 4, "b\nE\n", 26, "\x04", 3],
    # traps on signals, at the prompt, in commands and in `wait`, and on the end
    [2, "trap 'echo t $?' INT; trap 'echo u; f' USR1\n", 8, "f() { x=$(echo v); echo $x; }\n", 6, "\x03", 8,
     "kill -s USR1 $$; echo a\n", 26, "\x04", 3],
    [2, "trap 'echo t' INT TSTP\n", 6, "read y\n", 5, "\x03", 4, "ab\n", 8,
     "cat; echo $y\n", 10, "\x03", 12, "\x1a", 6, "trap 'exit 3' TERM; kill $$\n", 12],
    [2, "trap 'echo t' INT CHLD\n", 6, "cat & wait; echo $?\n", 24, "yes >/dev/null & wait $!; echo $?\n", 20, "\x03", 24, "\x04", 4],
    [2, "trap 'echo \"e $?\"' EXIT; (exit 3); trap >f; cat <f\n", 24, "fi\n", 6, "\x04", 8],
    # errors that drop the line
    [2, "echo ok; echo $((1/0)); echo no\n", 8, "fi\n", 5, "readonly r=1; x=a r=2; echo no\n", 9,
     "f() { echo ${n?gone}; }; f; echo $x\n", 10, "\x04", 3],
    [2, "set -u; . none; echo no\n", 8, "{ echo \"$n\"; } >f; echo no\n", 9,
     "eval 'fi'; echo no\n", 5, "exec none; echo $?\n", 7, "echo a >/bin; echo $?\n", 9, "\x04", 3],
    # other prompts, on another file too, and a program in the shell's place
    [2, "PS1='% ' PS2=\n", 5, "echo \\\n", 3, "a\n", 6, "exec 2>f; :& wait\n", 16, "fi\n", 5,
     "unset PS1; cat <f\n", 14, "exec cat\n", 6, "b\n", 5, "\x04", 3],
]

# The same for an interactive shell with a text, which prompts nothing.
TEXT_SESSIONS = [
    ("x=$((1/0)) no\ncat; echo no\n: &\nfg; read y; echo no\ntrap 'echo t' EXIT; cat &\nfg; echo $?",
     [12, "a\n", 5, "\x03", 30, "\x03", 26, "\x1a", 16]),
]

STOCK = ("cat", "having", "head", "yes")

FILES = [
    ("/in", "rw-", b"a\nb\n"),
    ("/bin/two", "r-x", b"echo $# \"$@\"\necho $0\n"),
    ("/empty", "rw-", b""),
    ("/tabs", "rw-", b"x=1; cat <<-E\n\t$x\n\tE\n"),
]

# what is said where memory is wanting
WANTING = b"psh: out of memory\n"

# so many growths in a row that change nothing are taken for the end of them
QUIET = 100


def write_image(path):
    """Writes an image with some programs and files."""
    with open(path, "wb") as image:
        image.write(b"psh image 1\ndir /bin\n")
        for name in STOCK:
            content = f"#!stock {name}\n".encode()
            image.write(f"file /bin/{name} r-x {len(content)}\n".encode() + content + b"\n")
        for name, flags, content in FILES:
            image.write(f"file {name} {flags} {len(content)}\n".encode() + content + b"\n")
        image.write(b"end\n")


def turns_of(count):
    """So many events that are turns."""
    return ["next"] * count


def keys_of(text):
    """The keys of a text, as events."""
    return [f"key {byte:02x}" for byte in text]


def events_of(session):
    """The events of a typed session."""
    events = []
    for part in session:
        events += turns_of(part) if isinstance(part, int) else keys_of(part.encode())
    return events


def events_in(content):
    """The events of a file of events, one by one."""
    events = []
    for line in content.split(b"\n"):
        word, _, rest = line.partition(b" ")
        if word == b"type":
            events += keys_of(rest)
        elif word == b"next":
            events += turns_of(int(rest or 1))
        elif word == b"run":
            place, _, times = rest.partition(b" ")
            events += [f"run {int(place)}"] * int(times or 1)
        elif line:
            events.append(line.decode())
    return events


def written(events):
    """Some events as their file has them: turns in a row are one line."""
    text = ""
    for event, same in itertools.groupby(events):
        times = len(list(same))
        text += f"{event}\n" * times if event.startswith("key") else f"{event} {times}\n"
    return text


def runs_of(image, path, is_typed):
    """The words of each run, what is told of it, and its events."""
    texts = [(["-c", text, image, path], text, turns_of(turns)) for text, turns in ROWS]
    scripts = [([image, path, script], script, turns_of(turns)) for script, turns in SCRIPTS]
    sessions = [([image, path], session, events_of(session)) for session in SESSIONS]
    sessions += [(["-i", "-c", text, image, path], [text, *session], events_of(session)) for text, session in TEXT_SESSIONS]
    return sessions if is_typed else texts + scripts + sessions


def make_shim(folder):
    """The library that refuses a growth."""
    shim = os.path.join(folder, "shim.so")
    subprocess.run(["cc", "-shared", "-fPIC", "-x", "c", "-", "-o", shim], input=SHIM.encode(), check=True)
    return shim


class Program:
    """The program, with a library that refuses a growth, in a folder in which it runs."""

    def __init__(self, program, shim, folder):
        self.program, self.shim, self.folder, self.path = program, shim, folder, os.path.join(folder, "events")

    def run(self, words, events, refused=0):
        """What a run comes to in which this growth is refused, or none."""
        with open(self.path, "w", encoding="utf-8") as file:
            file.write(written(events))
        env = {"LD_PRELOAD": self.shim, "REFUSE": str(refused)} if refused else {}
        done = subprocess.run([self.program, *words], capture_output=True, cwd=self.folder, env=env)
        return done.returncode, done.stdout, done.stderr

    def is_front(self, words, events, out):
        """Whether these are the terminal's bytes after some of the events. They only grow."""
        low, high = 0, len(events)
        while low < high:
            middle = (low + high) // 2
            if len(self.run(words, events[:middle])[1]) < len(out):
                low = middle + 1
            else:
                high = middle
        return self.run(words, events[:low])[1] == out

    def refuse_all(self, words, told, events):
        """Refuses each growth in turn; the number of refusals, and of bad ones."""
        whole = self.run(words, events)
        # (before the first event nothing is written; where the words ask for help alone, there are no events)
        fronts = {b"", whole[1]}
        refusals = bad = growth = quiet = 0
        while quiet < QUIET:
            growth += 1
            status, out, said = self.run(words, events, growth)
            if (status, out, said) == whole:
                quiet += 1
                continue
            quiet = 0
            refusals += 1
            if out not in fronts and self.is_front(words, events, out):
                fronts.add(out)
            if not (status == 3 and out in fronts and said == WANTING):
                bad += 1
                print("growth %d of %r: status %d, %r, %r" % (growth, told, status, out, said))
        print("%r: %d refusals" % (told, refusals))
        return refusals, bad


def refuse_row(program, shim, row):
    """Refuses each growth of a row in turn."""
    with tempfile.TemporaryDirectory() as folder:
        with open(os.path.join(folder, "image"), "wb") as image:
            image.write(row.image)
        words = [word.decode("utf-8", "surrogateescape") for word in row.words if word != b"--report"]
        return Program(program, shim, folder).refuse_all(words, (row.line, *words), events_in(row.events))


def refuse_rows(program, path, every):
    """Refuses each growth of some rows in turn, several rows side by side."""
    rows = [row for row in run_psh_rows.read_rows(path) if row.status == 0 and not row.is_full]
    with tempfile.TemporaryDirectory() as folder, concurrent.futures.ThreadPoolExecutor(os.cpu_count()) as pool:
        shim = make_shim(folder)
        return list(pool.map(lambda row: refuse_row(program, shim, row), rows[::every]))


def refuse_runs(program, is_typed):
    """Refuses each growth of the runs above in turn."""
    with tempfile.TemporaryDirectory() as folder:
        image = os.path.join(folder, "image")
        write_image(image)
        shell = Program(program, make_shim(folder), folder)
        return [shell.refuse_all(words, told, events) for words, told, events in runs_of(image, shell.path, is_typed)]


def program_of(paths):
    """The program of the last words."""
    top = os.path.dirname(os.path.dirname(os.path.abspath(__file__)))
    paths = paths or [os.path.join(top, "out", "psh")]
    if len(paths) > 1 or not os.access(paths[0], os.X_OK):
        sys.exit(__doc__)
    return os.path.abspath(paths[0])


def main(words):
    if words[:1] == ["rows"] and len(words) > 2 and words[2].isdigit():
        found = refuse_rows(program_of(words[3:]), words[1], int(words[2]))
    else:
        is_typed = words[:1] == ["typed"]
        found = refuse_runs(program_of(words[is_typed:]), is_typed)
    bad = sum(one for _, one in found)
    print("%d runs, %d refusals, %d bad" % (len(found), sum(one for one, _ in found), bad))
    return 1 if bad else 0


if __name__ == "__main__":
    sys.exit(main(sys.argv[1:]))
