#!/usr/bin/env python3
"""Checks that the pages name what is there, and that each crate has a page of its own; or prints where a name lives.

usage: check_pages.py
       check_pages.py --where NAME
       check_pages.py --where CRATE::NAME

Without words it looks at README.md, CONTRIBUTING.md, docs/, examples/README.md and crates/*/README.md:
- a path in backquotes that begins with crates/, docs/, scripts/ or examples/ has to be there, in a crate's own page also one that begins
  with src/, specs/ or data/, there or in a crate that is named beside it; and so has what a link leads to;
- where a word in backquotes follows a path to a source (`crates/CRATE/src/FILE.rt` `NAME`), the source has to have a function of that
  name; and in the glossary, names before a path have to be declared there;
- a crate that is named alone (`sh_x`, `test_x`) has to be one;
- docs/MAP.md has one row for each crate, in its room of crates.txt, with files of definitions that the crate has; the drawing of
  docs/TOUR.md has each crate once;
- docs/psh.1 names the built-ins of the table in sh_builtin_outcome, and README.md names none of them as one that is not there.
Ends with 1 where one of these doesn't hold.

--where prints the crate, the file and the line in which a definition, a function or a type of that name is declared, in specs/*.antt and
src/*.rt, and which crates pass it on (`pub use`). A file of definitions goes by its name without `.antt`, a method also as TYPE::NAME.
With CRATE it prints what the name is in that crate: what the crate declares, or else the home of what it passes on. Ends with 1 where
there is none.
"""
import collections
import functools
import glob
import os
import re
import sys

TOP = os.path.dirname(os.path.dirname(os.path.abspath(__file__)))
CRATES = sorted(os.listdir(f"{TOP}/crates"))
OWN = [f"crates/{crate}/README.md" for crate in CRATES]
SHARED = sorted(os.path.relpath(it, TOP) for it in glob.glob(f"{TOP}/docs/*.md"))
PAGES = ["README.md", "CONTRIBUTING.md", "examples/README.md", *SHARED, *OWN]
NAMED = re.compile(r"`((?:crates|docs|scripts|examples|src|specs|data)/[\w./-]+)`(?: `(\w+)`)?")
LINK = re.compile(r"\]\(([\w./-]*)(?:#([\w-]+))?\)")
CRATE = re.compile(r"`((?:sh|test)_[a-z_]*[a-z])`")
MANUAL = "docs/psh.1"
TABLE = "crates/sh_builtin_outcome/specs/Builtins.antt"

# A declaration: in definitions with words before its name, also in a `mutual` block, or with a colon behind it; in code at any depth.
DEFINED = re.compile(r"( *)((?:(?:pub|abbrev|unfoldable|record|data|type) )+)(?!use |mod )([^\s:(){}]+)|([^\s:(){}]+) : ")
CODED = re.compile(r"\s*(?:pub(?:\([\w ]+\))? )?(?:(?:const|unsafe) )*(fn|struct|enum|trait|type|const) (\w+)")
# What a block in code belongs to, and a form of a type.
OWNER = re.compile(r"(?:pub(?:\(\w+\))? )?(enum|trait) (\w+)|(impl)\b(?:<[^{]*?>)? (?:.* for )?(\w+)")
FORM = re.compile(r" +([A-Z]\w*)(?: [:({]|[,({]|$)")

Home = collections.namedtuple("Home", "crate path line kind name owner")


def read(path):
    with open(f"{TOP}/{path}", encoding="utf-8") as it:
        return it.read()


# ---- where names live


def in_definitions(crate, path):
    """What a file of definitions declares, itself among it."""
    yield Home(crate, path, 1, "definitions", os.path.basename(path)[: -len(".antt")], "")
    data = ""
    for number, line in enumerate(read(path).split("\n"), 1):
        found = DEFINED.match(line)
        # A field of a record is indented, and has no word but `pub`.
        if found and (found[1], found[2]) != ("  ", "pub "):
            kinds = (found[2] or "").split()
            kind = next((it for it in ("record", "data", "type") if it in kinds), "definition")
            data = found[3] if kind == "data" else ""
            yield Home(crate, path, number, kind, found[3] or found[4], "")
        elif data and (found := FORM.match(line)):
            yield Home(crate, path, number, "form", found[1], data)


def in_code(crate, path):
    """What a source declares."""
    owner, kind = "", ""
    for number, line in enumerate(read(path).split("\n"), 1):
        if line.startswith("}"):
            owner, kind = "", ""
        if found := CODED.match(line):
            yield Home(crate, path, number, found[1], found[2], owner if line.startswith(" ") else "")
        elif kind == "enum" and (found := FORM.match(line)):
            yield Home(crate, path, number, "form", found[1], owner)
        if found := OWNER.match(line):
            owner, kind = found[2] or found[4], found[1] or found[3]


def files_of(crate, part, ending):
    found = glob.glob(f"{TOP}/crates/{crate}/{part}/**/*{ending}", recursive=True)
    return sorted(os.path.relpath(it, TOP) for it in found)


@functools.cache
def homes():
    """All declarations by their name."""
    found = collections.defaultdict(list)
    for crate in CRATES:
        for part, ending, declared in (("specs", ".antt", in_definitions), ("src", ".rt", in_code)):
            for path in files_of(crate, part, ending):
                for home in declared(crate, path):
                    found[home.name].append(home)
    return found


def names_in(tree):
    """The paths of a tree such as `a::{b, c::d}`, each as a list of words."""
    head, brace, inside = tree.partition("{")
    if not brace:
        return [tree.split(" as ")[0].strip().split("::")]
    parts = [it for it in re.split(r",(?![^{]*\})", inside.rpartition("}")[0]) if it.strip()]
    return [head.strip().rstrip(":").split("::") + rest for part in parts for rest in names_in(part.strip())]


@functools.cache
def passed_on(crate):
    """What a crate passes on of others: the other crate, and the name of an item or of a file of definitions."""
    found = []
    for path in files_of(crate, "src", ".rt"):
        for tree in re.findall(r"(?m)^pub use ([^;]+);", read(path)):
            found += [(words[0], words[-1]) for words in names_in(tree) if words[0] in CRATES]
    for path in files_of(crate, "specs", "Lib.antt"):
        for words in re.findall(r"(?m)^pub use Rattle\.(\S+)", read(path)):
            found.append((words.split(".")[0], words.split(".")[-1]))
    return found


def seen_in(crate, name):
    """What a name is in a crate: what it declares, or else what it passes on, at its home."""
    own = [it for it in homes()[name] if it.crate == crate]
    if own:
        return own
    found = [home for other, item in passed_on(crate) if item == name for home in seen_in(other, name)]
    for other, item in passed_on(crate):
        for file in seen_in(other, item) if item != name and item[0].isupper() else []:
            if file.kind == "definitions":
                found += [it for it in homes()[name] if it.path == file.path]
    return list(dict.fromkeys(found))


def where(words):
    """Prints where a name lives."""
    *before, name = words.split("::")
    crate = before.pop(0) if before and before[0] in CRATES else None
    found = homes()[name]
    if before:
        types = {it.crate for it in (seen_in(crate, before[-1]) if crate else homes()[before[-1]])}
        found = [it for it in found if it.owner == before[-1] and it.crate in types]
    elif crate:
        found = seen_in(crate, name)
    lines = []
    for it in found:
        others = [other for other in CRATES if other != it.crate and it in seen_in(other, name)]
        what = f"{it.kind} {it.owner}::{name}" if it.owner else f"{it.kind} {name}"
        lines.append(f"{it.crate}  {it.path}:{it.line}  {what}" + (f", passed on by {', '.join(others)}" if others else ""))
    print("\n".join(lines or [f"{words} is declared nowhere"]))
    return 0 if found else 1


# ---- what the pages name


def line_at(text, place):
    return text.count("\n", 0, place) + 1


def headings(path):
    """The headings of a page, as links name them."""
    found = re.findall(r"(?m)^#+ (.*)$", read(path))
    return [re.sub(r"[^\w -]", "", it.lower()).replace(" ", "-") for it in found]


def wrong_paths(page, text):
    """The paths that a page names and that aren't there, and the functions."""
    own = os.path.dirname(page) + "/" if page in OWN else ""
    for found in NAMED.finditer(text):
        path, name = found.groups()
        line = line_at(text, found.start())
        if path.startswith(("src/", "specs/", "data/")):
            beside = CRATE.findall("\n".join(text.split("\n")[max(0, line - 2) : line + 1]))
            places = [own, *(f"crates/{crate}/" for crate in beside)] if own else []
            if not places or any(os.path.exists(f"{TOP}/{place}{path}") for place in places):
                continue
            path = own + path
        if "CRATE" in path:
            continue
        if not os.path.exists(f"{TOP}/{path}"):
            yield f"{page}:{line}: there is no {path}"
        elif name and path.endswith(".rt") and not re.search(rf"\bfn {name}\b", read(path)):
            yield f"{page}:{line}: {path} has no function {name}"
    for found in LINK.finditer(text):
        path = os.path.normpath(os.path.join(os.path.dirname(page), found[1])) if found[1] else page
        there = os.path.exists(f"{TOP}/{path}")
        if not there or found[2] and found[2] not in headings(path):
            yield f"{page}:{line_at(text, found.start())}: there is no {path}" + (f" with the heading {found[2]}" if there else "")


def wrong_in(page):
    """What a page names that isn't there, with its line."""
    text = read(page)
    yield from wrong_paths(page, text)
    for found in CRATE.finditer(text):
        if found[1] not in CRATES:
            yield f"{page}:{line_at(text, found.start())}: there is no crate {found[1]}"


def wrong_in_glossary(page="docs/GLOSSARY.md"):
    """The names before a path that aren't declared there."""
    for number, line in enumerate(read(page).split("\n"), 1):
        for names, path in re.findall(r"((?:`[\w:]+`(?:,| and)? )+)`(crates/[\w./-]+)`", line):
            for name in re.findall(r"(\w+)`", names):
                if not any(it.path == path for it in homes()[name]):
                    yield f"{page}:{number}: {path} declares no {name}"


def rooms_of(path, room, crate):
    """Each crate that a file has with the room that stands over it, by the patterns of both."""
    found, over = [], ""
    for line in read(path).split("\n"):
        over = it[1] if (it := re.match(room, line)) else over
        found += [(it[1], over)] if (it := re.match(crate, line)) else []
    return found


def wrong_in_map(page="docs/MAP.md"):
    """Crates that have no row in their room or two, and files of definitions that a row names and its crate hasn't."""
    rows = rooms_of(page, r"## (.*)", r"\| `(\w+)` \|")
    listed = rooms_of("crates.txt", r"# (\w+)$", r"(\w+):")
    for (crate, room), count in collections.Counter(rows).items():
        if (crate, room) not in listed or count > 1:
            yield f"{page}: {count} rows for {crate} in {room}"
    yield from (f"{page}: no row for {crate} in {room}" for crate, room in listed if (crate, room) not in rows)
    for crate, row in re.findall(r"(?m)^\| `(\w+)` \|(.*)$", read(page)):
        for file in re.findall(r"`(\w+\.antt)`", row):
            if not os.path.exists(f"{TOP}/crates/{crate}/specs/{file}"):
                yield f"{page}: {crate} has no specs/{file}"


def wrong_in_drawing(page="docs/TOUR.md"):
    """Crates that the drawing hasn't, or has twice."""
    drawing = read(page).split("```")[1]
    for crate, count in collections.Counter([*CRATES, *re.findall(r"\b(?:sh|test|psh)_\w+|\bpsh\b", drawing)]).items():
        if count != 2:
            yield f"{page}: {crate} is {count - 1} times in the drawing"


def wrong_built_ins():
    """Built-ins that the man page has and the table hasn't, or the other way; and those that README.md says aren't there."""
    table = set(re.findall(r'(?m)^row_of \w+ = \w+ \(codes "(.*)"\)', read(TABLE)))
    section = read(MANUAL).partition(".Ss Built-in utilities\n")[2].partition("\n.Ss ")[0]
    shown = {name.replace("\\&", "") for line in re.findall(r"(?m)^\.It (.*)", section) for name in re.findall(r"Ic (\S+)", line)}
    yield from (f"{MANUAL}: the built-in {it} isn't in both the page and {TABLE}" for it in sorted(table ^ shown))
    missing = re.search(r"(?m)^- \*\*Built-ins\*\*: (.*)", read("README.md"))
    if not missing:
        yield "README.md: it doesn't say which built-ins aren't there"
    for name in table & set(re.findall(r"`(\S+)`", missing[1] if missing else "")):
        yield f"README.md: the built-in {name} is there"


def main():
    wrong = [f"{page} isn't there" for page in PAGES if not os.path.exists(f"{TOP}/{page}")]
    for page in PAGES:
        wrong += wrong_in(page) if os.path.exists(f"{TOP}/{page}") else []
    for path in re.findall(r"(?m)^\.Pa ((?:docs|crates|scripts|examples)/\S+|README\.md)", read(MANUAL)):
        wrong += [] if os.path.exists(f"{TOP}/{path}") else [f"{MANUAL}: there is no {path}"]
    for found in (wrong_in_glossary(), wrong_in_map(), wrong_in_drawing(), wrong_built_ins()):
        wrong += found
    print("\n".join([*wrong, f"pages: {len(PAGES)}, {len(wrong)} names of what isn't there"]))
    return 1 if wrong else 0


if __name__ == "__main__":
    if len(sys.argv) == 3 and sys.argv[1] == "--where":
        sys.exit(where(sys.argv[2]))
    if len(sys.argv) > 1:
        sys.exit(__doc__)
    sys.exit(main())
