#!/usr/bin/env python3
"""Finds the places that make a want of memory up: each has to be an allocator's refusal, handed on.

usage: find_made_refusals.py [FOLDER]

`NoMemory` of sh_base has a private field, so outside its crate it is made only from an `AllocError`, and that is a unit struct,
which anybody can write down. So this looks, in the sources of all crates of the repository (or of the folder), for an `AllocError`
that is written as a value, and for a value of either type by `Default`. Ends with 1 where it finds one that isn't listed here.
"""
import os
import re
import sys

TOP = os.path.dirname(os.path.dirname(os.path.abspath(__file__)))
# Places that stay, each with its line and the reason.
LISTED = {
    # A count of open substitutions that has no place in a usize: the pieces that it counts would not fit into memory.
    ("sh_parse_words/src/build.rt", "return Err(AllocError);"),
    # A count of open levels, of which the same holds.
    ("sh_token_scanner/src/state.rt", "return Err(AllocError);"),
    # A count of the descriptors of an open file description that has no place in a usize: they would not fit into memory.
    ("sh_kernel_descriptors/src/copying.rt", "return Err(AllocError);"),
    ("sh_kernel_machine/src/machine.rt", "return Err(AllocError);"),
    # A process's table of descriptors isn't there though it was made just before, which can't be.
    ("sh_kernel_machine/src/tables.rt", "None => Err(AllocError),"),
}
# Lines that make a refusal up, and lines that hand one on or name a type: each run looks whether they are told apart.
MADE = ["return Err(AllocError);", "Err(_) => Err(NoMemory::from(AllocError)),", "x.ok_or(AllocError)?", "let it = AllocError;", "Err(AllocError {})"]
HANDED_ON = ["fn f(x: u8) -> Result<(), AllocError>", "impl From<AllocError> for Fault {", "fn from(error: AllocError) -> Fault {",
             "Err(X::NoMemory(lack)) => Err(AllocError::from(lack)),", "use std::alloc::{AllocError, Global};", "// return Err(AllocError);"]
# What is no code: comments and texts.
NO_CODE = re.compile(r'//[^\n]*|b?"(?:[^"\\]|\\.)*"', re.S)
# An AllocError behind what only a value can follow; a type follows `<`, `,`, `:`, `->`, `for` or `{` of a `use`.
AS_VALUE = re.compile(r"(?:[(|=;\[]|=>|\breturn|\belse \{|[^}]\n\s*\{)\s*AllocError\b(?!\s*::\s*from\b)|\bAllocError\s*(?:::\s*default|\{\s*\})|\bNoMemory\s*(?:::\s*default)")


def code_of(text):
    """The text with blanks in the place of comments and texts, line by line as it was."""
    return NO_CODE.sub(lambda it: re.sub(r"[^\n]", " ", it[0]), text)


def made_in(text, name):
    """The lines of a file that make a refusal up, with their numbers."""
    lines = text.split("\n")
    for found in AS_VALUE.finditer(code_of(text)):
        number = text.count("\n", 0, found.end())
        line = lines[number].strip()
        if not line.startswith(("use ", "ghost ")) and (name, line) not in LISTED:
            yield f"{name}:{number + 1}: {line}"


def read(path):
    with open(path, encoding="utf-8") as it:
        return it.read()


def main(words):
    for line in MADE + HANDED_ON:
        if bool(list(made_in(line, ""))) != (line in MADE):
            sys.exit(f"find_made_refusals.py doesn't know what this line does: {line}")
    folder = os.path.abspath(words[0]) if words else f"{TOP}/crates"
    files = [f"{at}/{name}" for at, _, names in os.walk(folder) for name in names if name.endswith(".rt") and "/out/" not in f"{at}/"]
    found = [line for path in sorted(files) for line in made_in(read(path), os.path.relpath(path, folder))]
    for line in found:
        print(f"{line}: makes an allocator's refusal up")
    print(f"{len(files)} files, {len(found)} places that make an allocator's refusal up")
    return 1 if found else 0


if __name__ == "__main__":
    if len(sys.argv) > 2:
        sys.exit(__doc__)
    sys.exit(main(sys.argv[1:]))
