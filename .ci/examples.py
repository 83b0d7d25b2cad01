#!/usr/bin/env python3
"""Runs the examples of README.md, docs/GUIDE.md and docs/RULES.md on the built program, and compares what it puts and leaves.

Each document's examples run in a copy of examples/, in their order. A code block is one of an example by the line before it:
a line that ends in the name of a file, as `light.c`, gives the file these bytes; one that ends in a command and `prints`, as
`demacro plan ring.json` prints, says what the command puts; and one that ends in `leaves` and the name of a file says what that
file holds then. Other code blocks are passed over.

usage: examples.py PROGRAM
"""
import os
import re
import shlex
import shutil
import subprocess
import sys
import tempfile

TOP = os.path.dirname(os.path.dirname(os.path.abspath(__file__)))
DOCUMENTS = ["README.md", "docs/GUIDE.md", "docs/RULES.md"]
BLOCK = re.compile(r"^([^\n]*)\n\n```\w*\n(.*?)^```$", re.MULTILINE | re.DOTALL)
PRINTS = re.compile(r"`demacro ([^`]+)` prints$")
LEAVES = re.compile(r"\bleaves `([^`]+)`$")
FILE = re.compile(r"`([\w./-]+\.(?:c|h|json))`$")


def path_in(folder, name):
    path = os.path.join(folder, name)
    os.makedirs(os.path.dirname(path), exist_ok=True)
    return path


def difference(what, found, wanted):
    return [] if found == wanted else [f"{what} is\n{found}and not\n{wanted}"]


def try_block(program, folder, line, text):
    """What is wrong with an example, or None where the block is none."""
    prints, leaves, file = PRINTS.search(line), LEAVES.search(line), FILE.search(line)
    if prints:
        words = shlex.split(prints[1])
        ran = subprocess.run([program, *words], cwd=folder, capture_output=True, text=True, timeout=120, check=False)
        return difference(f"the output of demacro {prints[1]}", ran.stdout, text)
    if leaves or file:
        name = (leaves or file)[1]
        if leaves:
            with open(path_in(folder, name), encoding="utf-8") as held:
                return difference(name, held.read(), text)
        with open(path_in(folder, name), "w", encoding="utf-8") as held:
            held.write(text)
        return []
    return None


def try_document(program, document):
    """How many examples a document has, and what is wrong with them."""
    with open(os.path.join(TOP, document), encoding="utf-8") as text:
        blocks = BLOCK.findall(text.read())
    with tempfile.TemporaryDirectory() as work:
        folder = shutil.copytree(os.path.join(TOP, "examples"), os.path.join(work, "examples"))
        tried = [try_block(program, folder, line, text) for line, text in blocks]
    examples = [faults for faults in tried if faults is not None]
    return len(examples), [fault for faults in examples for fault in faults]


def main(words):
    program = os.path.abspath(words[0])
    status = 0
    for document in DOCUMENTS:
        count, faults = try_document(program, document)
        print(f"{document}: {count} examples, {len(faults)} faults")
        for fault in faults:
            print(fault)
            status = 1
        if count == 0:
            status = 1
    return status


if __name__ == "__main__":
    sys.exit(main(sys.argv[1:]))
