#!/usr/bin/env python3
"""The memory that the built program takes for a file of events of one line and of 200.

Each line is `next 1000000`. Prints the memory of a run of `:` with one such line and of one with 200, and the ratio of the two: psh hands
the world its events line by line, so the number of turns takes no memory, and a line as much as its entry in a list.

Needs psh built (./build), or a path to it as the only word.
"""
import measuring


def main():
    with measuring.bare_run(__doc__) as (program, folder, image):
        files = [measuring.write_events(f"{folder}/{lines}", lines * 1_000_000) for lines in (1, 200)]
        one, many = [measuring.memory([program, "-c", ":", image, events]) for events in files]
    print(f"1 line: {one} KiB; 200 lines: {many} KiB")
    print(f"ratio {many / one:.2f}")


if __name__ == "__main__":
    main()
