#!/usr/bin/env python3
"""Counts the ways through crates.txt, from each crate down, which rt follows one by one before it proves a crate.

usage: count_ways.py [COUNT]

Prints the crates with most ways, what all have together, and the words of crates.txt without which there would be fewest: of each how
many ways would go, and how often the crate names the other one. A word can go if a crate between the two passes the other one on
(docs/ADDING.md).
"""
import functools
import os
import re
import sys

import sources


def ways(below):
    """How many ways lead down from each crate, itself counted."""

    @functools.lru_cache(maxsize=None)
    def from_crate(crate):
        return 1 + sum(map(from_crate, below[crate]))

    return {crate: from_crate(crate) for crate in below}


def reached(below, crate):
    """The crates that a crate stands on."""
    found, left = set(), list(below[crate])
    while left:
        it = left.pop()
        if it not in found:
            found.add(it)
            left += below[it]
    return found


def uses(crate, other):
    """How often the files of a crate name another one."""
    count = 0
    for part in sources.PARTS:
        for place, _, names in os.walk(f"{sources.TOP}/crates/{crate}/{part}"):
            for name in names:
                with open(f"{place}/{name}", encoding="utf-8") as file:
                    count += len(re.findall(rf"\b{other}(?:::|\.)", file.read()))
    return count


def main(count=10):
    named = sources.named_crates()
    below = {crate: [it for it in words if it in named] for crate, words in named.items()}
    found = ways(below)
    total = sum(found.values())
    for crate in sorted(found, key=found.get)[-count:]:
        print(f"{found[crate]:9,}  {crate}")
    print(f"{total:9,}  all")
    without = {}
    for crate, others in below.items():
        for other in others:
            fewer = {**below, crate: [it for it in others if it != other]}
            if other in reached(fewer, crate):
                without[crate, other] = total - sum(ways(fewer).values())
    for crate, other in sorted(without, key=without.get, reverse=True)[:count]:
        print(f"{without[crate, other]:9,}  less without {other} in {crate}, which names it {uses(crate, other)} times")


if __name__ == "__main__":
    if len(sys.argv) > 2 or not all(it.isdigit() for it in sys.argv[1:]):
        sys.exit(__doc__)
    main(*map(int, sys.argv[1:]))
