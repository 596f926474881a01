"""Which files a program is made of, their checksums, and where the toolchain is: what ./build and the scripts share."""
import hashlib
import os
import shutil
import subprocess

TOP = os.path.dirname(os.path.dirname(os.path.abspath(__file__)))
# The parts of a crate that are proved and compiled.
PARTS = ["src", "specs", "proofs"]
# The commands at the top, and the crates of their programs.
PROGRAMS = {"psh": "psh", "psh-schedules": "psh_schedules", "psh-timeline": "psh_timeline"}
# Where the programs stand that these commands run, each with the checksums of what it was made of.
OUT = f"{TOP}/out"


def named_crates():
    """Each crate of this repository with the words behind it, as crates.txt has them."""
    lines = {}
    with open(f"{TOP}/crates.txt", encoding="utf-8") as file:
        for line in file:
            crate, found, below = line.partition(":")
            if found and not line.startswith("#"):
                lines[crate.split()[0]] = below.split()
    return lines


def crates_below(*names):
    """The crates of this repository that these stand on, and they themselves, as crates.txt names them."""
    lines, wanted, found = named_crates(), list(names), []
    while wanted:
        crate = wanted.pop()
        if crate in lines and crate not in found:
            found.append(crate)
            wanted += lines[crate]
    return sorted(found)


def crates_below_all():
    """All crates of this repository, as crates.txt names them."""
    return sorted(named_crates())


def put_names(crates, to):
    """Puts what names the crates into a folder: these of crates.txt, and what handles are allowed."""
    shutil.copy(f"{TOP}/HANDLES", to)
    with open(f"{TOP}/crates.txt", encoding="utf-8") as it:
        lines = [line for line in it if line.partition(":")[0] in crates]
    with open(f"{to}/crates.txt", "w", encoding="utf-8") as it:
        it.writelines(lines)


def kit():
    """The folder of the toolchain."""
    page = subprocess.run(["rt", "doc"], stdout=subprocess.PIPE, text=True, check=True).stdout.strip()
    return os.path.dirname(page)


def files_of(crates, parts, top=TOP):
    """The files in these folders of crates, by their paths in the repository, and what names the crates."""
    found = ["HANDLES", "crates.txt"]
    for crate in crates:
        for part in parts:
            for place, _, names in os.walk(f"{top}/crates/{crate}/{part}"):
                found += [os.path.relpath(f"{place}/{name}", top) for name in names]
    return sorted(found)


def sums_of(files, top=TOP):
    """Lines that sha256sum --check reads."""
    lines = []
    for file in files:
        with open(f"{top}/{file}", "rb") as it:
            lines.append(f"{hashlib.sha256(it.read()).hexdigest()}  {file}\n")
    return "".join(lines)


def is_made(name, files, out=OUT):
    """Whether a program is there that was made of these files as they are."""
    if not os.path.exists(f"{out}/{name}") or not os.path.exists(f"{out}/{name}.sums"):
        return False
    with open(f"{out}/{name}.sums", encoding="utf-8") as it:
        return sorted(it) == sorted(sums_of(files).splitlines(keepends=True))


def put(program, name, sums, out=OUT):
    """Puts a program into a folder, and what it was made of behind it, so that no half of it is ever run."""
    os.makedirs(out, exist_ok=True)
    with open(program, "rb") as it:
        code = it.read()
    if os.path.exists(f"{out}/{name}.sums"):
        os.remove(f"{out}/{name}.sums")
    for file, data, mode in ((name, code, 0o755), (f"{name}.sums", sums.encode(), 0o644)):
        with open(f"{out}/{file}.new", "wb") as it:
            it.write(data)
        os.chmod(f"{out}/{file}.new", mode)
        os.replace(f"{out}/{file}.new", f"{out}/{file}")
