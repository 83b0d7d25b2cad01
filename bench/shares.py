#!/usr/bin/env python3
"""Tells what the runs, the places and the effects of a unit cost beside its reading, in instructions of `demacro plan` as callgrind counts them:
for each shape of many_runs.py at two sizes, so that it also shows what is more than linear.

usage: shares.py PROGRAM FOLDER [--tokens N N] [SHAPE..]

Start it on a built program, `crates/demacro/out/demacro` behind `python3 tools/build.py`, with an empty folder for the units and the counts.
It needs valgrind, with its `callgrind_annotate`, and a program with its symbols, as the build leaves it; a stripped one is refused. The sizes
are 100,000 and 1,000,000 tokens of phase 4 if none are given; a plan of a million tokens takes callgrind a minute or two. Where a unit of that
size breaks a limit (1,048,576 bytes of a file, of which a directive can't be longer; 4,096 definitions) a smaller one is made, and the line says
how many tokens it has. The text stands in headers of at most a mebibyte.

A line has, for a shape and a size, the instructions a token of the reading; as shares of the reading those of the runs (`Runs::of`), of the places
(`Sites::of`, which is called twice for a unit), of the effects (`QuietFunctions::of` and `Objects::of`) and of what stands round the places
(`Surroundings::of`); their sum; all of the judging; and how the sum grew a token since the size before. A part whose functions the
compiler has put into their callers is `-`, and is counted with the judging alone.
"""
import argparse
import os
import re
import subprocess
import sys

from many_runs import SHAPES

LARGEST = 1 << 20
MOST_TOKENS = 1_000_000
# Where each definition is made for itself, there are no more than a project may have.
MOST = {"definitions": 4096}
START = 400

READING = ["dm_read::unit::read_unit"]
# For each part its functions, each with the one that does nearly all of its work, should the compiler have put it into its caller.
PARTS = {
    "runs": [["dm_runs::runs::Runs::of"]],
    "places": [["dm_sites::sites::Sites::of"]],
    "effects": [["dm_effect::quieting::QuietFunctions::of"], ["dm_stable::objects::Objects::of", "dm_stable::objects::noted"]],
    "round": [["dm_around::surroundings::Surroundings::of"]],
}
JUDGING = ["dm_planning::judging::known_of", "dm_planning::judging::next_change"]
ROW = re.compile(r"^\s*([\d,]+) \(\s*[\d.]+%\)\s+[^:]*:(.*?) \[")


def headers(text):
    """The text in pieces of at most a mebibyte, cut at newlines, or None where a line is longer than that."""
    made = [""]
    for line in text.splitlines(keepends=True):
        if len(line) > LARGEST:
            return None
        if len(made[-1]) + len(line) > LARGEST:
            made.append("")
        made[-1] += line
    return made


def write(shape, size):
    """Writes the unit a.c of a shape, and says whether it fits the limit of a file."""
    text, _ = SHAPES[shape][0](size)
    pieces = headers(text)
    if pieces is None:
        return False
    for number, piece in enumerate(pieces):
        with open(f"part{number}.h", "w", encoding="utf-8") as file:
            file.write(piece)
    with open("a.c", "w", encoding="utf-8") as file:
        file.write("".join(f'#include "part{number}.h"\n' for number in range(len(pieces))))
    return True


def tokens(program):
    """How many tokens the unit has, or None where it breaks a limit. Its tokens have no blanks in them."""
    told = subprocess.run([program, "expand", "a.c", "a.c"], stdout=subprocess.PIPE, stderr=subprocess.DEVNULL, check=False)
    return len(told.stdout.split()) if told.returncode == 0 else None


def write_near(program, shape, wanted):
    """Writes a unit of a shape with about so many tokens, or with as many as the limits allow, and says how many it has."""
    most = MOST.get(shape, wanted)
    if not write(shape, START):
        sys.exit(f"{shape}: no unit of {START}")
    size = min(most, START * min(wanted, MOST_TOKENS - 1000) // tokens(program))
    while True:
        count = tokens(program) if write(shape, size) else None
        if count is not None:
            return count
        size = size * 19 // 20


def counted(program):
    """The instructions of each function of a plan, with those that it calls, by its name without type arguments."""
    counts = "counts.callgrind"
    run = ["valgrind", "--tool=callgrind", f"--callgrind-out-file={counts}", program, "plan", "a.c"]
    subprocess.run(run, stdout=subprocess.DEVNULL, stderr=subprocess.DEVNULL, check=True)
    told = subprocess.run(["callgrind_annotate", "--inclusive=yes", "--threshold=100", counts], stdout=subprocess.PIPE, text=True, check=True)
    found = {}
    for line in told.stdout.splitlines():
        row = ROW.match(line)
        if row:
            name = re.sub(r"::<.*|'\d+$", "", row[2])
            found[name] = found.get(name, 0) + int(row[1].replace(",", ""))
    return found


def sum_of(found, names):
    return sum(found.get(name, 0) for name in names)


def part_of(found, functions):
    """What the functions of a part cost, or None where the program has none of them."""
    told = [next((found[name] for name in names if name in found), None) for names in functions]
    known = [count for count in told if count is not None]
    return sum(known) if known else None


def shares(program, shape, wanted, before):
    """Puts the line of a shape at a size. Gives the instructions a token of the parts."""
    count = write_near(program, shape, wanted)
    found = counted(program)
    reading = sum_of(found, READING)
    if reading == 0:
        sys.exit("no function has the name of the reading: the program has no symbols")
    parts = {name: part_of(found, functions) for name, functions in PARTS.items()}
    total = sum(part or 0 for part in parts.values())
    told = "  ".join(f"{name} {'-' if part is None else format(part / reading, '.1%')}" for name, part in parts.items())
    growth = "" if before is None else f"  a token x{total / count / before:.2f}"
    judging = sum_of(found, JUDGING) / reading
    print(f"{shape} {count}: reading {reading / count:.0f} a token  {told}  together {total / reading:.1%}  judging {judging:.0%}{growth}", flush=True)
    return total / count


def main():
    words = argparse.ArgumentParser(description=__doc__, formatter_class=argparse.RawDescriptionHelpFormatter)
    words.add_argument("program")
    words.add_argument("folder")
    words.add_argument("--tokens", type=int, nargs=2, default=[100_000, 1_000_000])
    words.add_argument("shapes", nargs="*", default=list(SHAPES))
    told = words.parse_intermixed_args()
    program = os.path.abspath(told.program)
    os.chdir(told.folder)
    for shape in told.shapes:
        before = None
        for wanted in told.tokens:
            before = shares(program, shape, wanted, before)


if __name__ == "__main__":
    main()
