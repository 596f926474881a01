#!/usr/bin/env python3
"""Lays out a crate over the libraries that `rt ci` has proved, so that `rt check` and `rt plant` begin with the crate itself.

usage: lay_out.py [--over FOLDER] CRATE TO

`rt check` and `rt plant` take no library from `rt ci`, and prove all that is below a crate once more. The folder TO gets the crate as it
stands here, and the crates below it with what `rt ci` built of them in FOLDER, a checkout in which it has run (this one, where none is
given). The text of these has to be the same in both. What is said of the crate in TO is no verdict: the gate's is.

Ends with 1 where a crate below differs or isn't built, or TO is there already.
"""
import argparse
import importlib.machinery
import importlib.util
import os
import shutil
import sys

import proving
import sources


def toolchain():
    """The part of rt that tells what a library is made from."""
    sys.dont_write_bytecode = True
    loader = importlib.machinery.SourceFileLoader("rtlib", f"{sources.kit()}/bin/rtlib.py")
    made = importlib.util.module_from_spec(importlib.util.spec_from_loader("rtlib", loader))
    sys.modules["rtlib"] = made
    loader.exec_module(made)
    return made


def put_stamps(folder):
    """Notes beside each library below the crate in a folder what it was made from, as rt does where it builds one."""
    rt, stamps = toolchain(), {}
    stamp_of = rt.Crate.stamp
    # A crate's stamp asks for those of all below it: each is reckoned once.
    rt.Crate.stamp = lambda it: stamps[it.folder] if it.folder in stamps else stamps.setdefault(it.folder, stamp_of(it))
    for below in rt.Crate(folder, rt.root_above(folder) or folder, {}).below():
        with open(f"{below.folder}/out/rlib/stamp", "w", encoding="utf-8") as it:
            it.write(below.stamp())


def main():
    reader = argparse.ArgumentParser(usage=__doc__.split("usage: ", 1)[1])
    reader.add_argument("--over", default=sources.TOP)
    reader.add_argument("crate")
    reader.add_argument("to")
    asked = reader.parse_args()
    over, to = os.path.abspath(asked.over), os.path.abspath(asked.to)
    crates = sources.crates_below(asked.crate)
    if not crates:
        sys.exit(f"there is no crate {asked.crate}")
    if os.path.lexists(to):
        sys.exit(f"{to} is there already")
    lack = proving.lack_below(asked.crate, over)
    if lack:
        sys.exit(lack)
    # The folder is the top of a repository for rt.
    os.makedirs(f"{to}/.git")
    sources.put_names(crates, to)
    for crate in crates:
        for part in sources.PARTS:
            if os.path.isdir(f"{sources.TOP}/crates/{crate}/{part}"):
                shutil.copytree(f"{sources.TOP}/crates/{crate}/{part}", f"{to}/crates/{crate}/{part}")
        if crate != asked.crate:
            proving.link_folder(f"{over}/crates/{crate}/out/rlib", f"{to}/crates/{crate}/out/rlib")
    put_stamps(f"{to}/crates/{asked.crate}")
    print(f"{asked.crate} is in {to}/crates/{asked.crate}")


if __name__ == "__main__":
    main()
