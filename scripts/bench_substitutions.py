#!/usr/bin/env python3
"""Instructions for each command substitution of one word of the built program, and how they grow with their number.

Runs `: $(:)$(:)..` under valgrind's callgrind, with 1, 11, 101 and 1,001 substitutions, and prints the instructions for each further one,
and the ratio of the last two figures. An expansion goes on from where it waited, so the number of those before makes little difference.

Needs valgrind, and psh built (./build), or a path to it as the only word.
"""
import itertools

import measuring

# The fork, the two turns of its process, the read that finds the end, the wait and the expansion; and some more.
TURNS = 8
COUNTS = (1, 11, 101, 1_001)


def main():
    costs = []
    with measuring.bare_run(__doc__) as (program, folder, image):
        for count in COUNTS:
            events = measuring.write_events(f"{folder}/events", 10 + count * TURNS)
            costs.append(measuring.instructions(folder, [program, "-c", f": {'$(:)' * count}", image, events]))
    each = []
    for (fewer, before), (more, behind) in itertools.pairwise(zip(COUNTS, costs)):
        each.append((behind - before) / (more - fewer))
        print(f"from {fewer} to {more} substitutions: {each[-1]:.0f} instructions for each")
    print(f"ratio {each[-1] / each[-2]:.2f}")


if __name__ == "__main__":
    main()
