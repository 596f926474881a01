"""What the benchmarks of the built program share: the instructions and the memory of a run, and files of images and events."""
import contextlib
import os
import subprocess
import sys
import tempfile

TOP = os.path.dirname(os.path.dirname(os.path.abspath(__file__)))

# Runs a program and tells the most memory that it had, in KiB. A process that Python starts counts the memory of Python, which it has
# until it runs the program; one that this small program starts doesn't. Addresses aren't chosen at random: else two runs of one
# program differ by some 100 KiB, by the pages that are touched.
MEASURE = r"""
#include <stdio.h>
#include <sys/personality.h>
#include <sys/resource.h>
#include <sys/wait.h>
#include <unistd.h>
int main(int count, char **words) {
    struct rusage used;
    int status;
    pid_t child = fork();
    if (child == 0) { personality(ADDR_NO_RANDOMIZE); execvp(words[1], words + 1); _exit(127); }
    if (child < 0 || wait4(child, &status, 0, &used) != child) return 126;
    fprintf(stderr, "%ld\n", used.ru_maxrss);
    return WIFEXITED(status) ? WEXITSTATUS(status) : 125;
}
"""


@contextlib.contextmanager
def bare_run(usage):
    """The program of the command line, or the one that was built; and a folder that has an image without files, and its path."""
    program = os.path.abspath((sys.argv[1:] or [f"{TOP}/out/psh"])[0])
    if len(sys.argv) > 2 or not os.access(program, os.X_OK):
        sys.exit(usage)
    with tempfile.TemporaryDirectory() as folder:
        image = f"{folder}/image"
        with open(image, "w", encoding="utf-8") as file:
            file.write("psh image 1\nend\n")
        yield program, folder, image


def write_events(path, turns):
    """Writes so many turns, going round. A line has at most a million."""
    with open(path, "w", encoding="utf-8") as events:
        while turns:
            part = min(turns, 1_000_000)
            events.write(f"next {part}\n")
            turns -= part
    return path


def instructions(folder, words, statuses=(0,)):
    """The instructions of a run under valgrind's callgrind, which has to end with one of these statuses."""
    ran = subprocess.run(["valgrind", "--tool=callgrind", f"--callgrind-out-file={folder}/out", *words], capture_output=True)
    for line in ran.stderr.decode(errors="replace").splitlines():
        if "Collected" in line and ran.returncode in statuses:
            return int(line.split(":")[1].replace(",", ""))
    sys.exit(f"{words}: {ran.returncode} {ran.stdout[-200:]} {ran.stderr[-400:]}")


def memory(words):
    """The most memory that a run had, in KiB."""
    with tempfile.TemporaryDirectory() as folder:
        measure = f"{folder}/measure"
        subprocess.run(["cc", "-O1", "-x", "c", "-", "-o", measure], input=MEASURE, text=True, check=True)
        ran = subprocess.run([measure, *words], stdout=subprocess.DEVNULL, stderr=subprocess.PIPE, text=True)
    if ran.returncode:
        sys.exit(f"{words}: {ran.returncode} {ran.stderr[-400:]}")
    return int(ran.stderr.split()[-1])
