#!/usr/bin/env python3
"""Hands on what `rt ci` puts, line by line, and behind each crate that is proved says how many are left, and how long all has taken.

usage: rt ci | progress.py
"""
import os
import re
import sys
import time

TOP = os.path.dirname(os.path.dirname(os.path.abspath(__file__)))
PROVED = re.compile(rb"rt: (\w+) proved\n")


def crates():
    """How many crates there are."""
    with open(os.path.join(TOP, "crates.txt"), encoding="utf-8") as lines:
        return sum(":" in line.split("#")[0] for line in lines)


def progress(lines, left):
    """The lines, and one more behind each crate that is proved."""
    began = time.monotonic()
    for line in lines:
        yield line
        if PROVED.fullmatch(line):
            left -= 1
            seconds = int(time.monotonic() - began)
            yield b"rt: %d crates left to prove, %d:%02d minutes so far\n" % (left, *divmod(seconds, 60))


def main():
    for line in progress(sys.stdin.buffer, crates()):
        sys.stdout.buffer.write(line)
        sys.stdout.buffer.flush()


if __name__ == "__main__":
    main()
