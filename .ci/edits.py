#!/usr/bin/env python3
"""Tries whether each edit of must-fail/ and more-must-fail/ still fits the files of its crate, and lists those that don't.

An edit has lines `file: PATH`, and below each pairs of lines `old: TEXT` and `new: TEXT`. A pair replaces what the earlier ones
left, in which its old text has to stand exactly once; its new text names no constant that the file doesn't. Nothing is proved
here: whether the prover refuses an edit is for `rt ci`, and for `bench/edits.sh` where the gate leaves it out.

usage: edits.py [NAME..]     only the edits of these crates
"""
import os
import re
import sys

TOP = os.path.dirname(os.path.dirname(os.path.abspath(__file__)))
FOLDERS = ["must-fail", "more-must-fail"]
CONSTANT = re.compile(r"(?<!::)\b[A-Z][A-Z0-9]*_[A-Z0-9_]+\b")


class Misfit(Exception):
    """Why an edit doesn't fit."""


def read(path):
    with open(path, encoding="utf-8") as file:
        return file.read()


def pairs_of(edit):
    """The pairs of an edit, each with the path of its file."""
    path = old = None
    for line in read(edit).split("\n"):
        key, _, text = line.partition(": ")
        if key == "file":
            path = text
        elif key == "old" and path and old is None:
            old = text
        elif key in ("new", "new:") and old:
            yield path, old, text
            old = None
        elif line:
            raise Misfit(f"this line is out of place: {line}")
    if old is not None:
        raise Misfit(f"there is no new text for: {old}")


def fit(crate, edit):
    """Makes an edit of the texts of its crate's files, of which nothing is written."""
    texts = {}
    for path, old, new in pairs_of(edit):
        at = os.path.join(crate, path)
        if not os.path.isfile(at):
            raise Misfit(f"there is no file {path}")
        text = texts[path] if path in texts else read(at)
        if text.count(old) != 1:
            raise Misfit(f"this stands {text.count(old)} times in {path}: {old}")
        for name in set(CONSTANT.findall(new)) - set(CONSTANT.findall(text)):
            raise Misfit(f"{path} doesn't name {name}")
        texts[path] = text.replace(old, new)
    if all(text == read(os.path.join(crate, path)) for path, text in texts.items()):
        raise Misfit("it changes nothing")


def edits_of(crate):
    """The paths of a crate's edits, in order."""
    for folder in FOLDERS:
        at = os.path.join(crate, folder)
        if os.path.isdir(at):
            yield from (os.path.join(at, name) for name in sorted(os.listdir(at)) if name.endswith(".edit"))


def main():
    count = wrong = 0
    for name in sys.argv[1:] or sorted(os.listdir(os.path.join(TOP, "crates"))):
        crate = os.path.join(TOP, "crates", name)
        for edit in edits_of(crate):
            count += 1
            try:
                fit(crate, edit)
            except Misfit as why:
                wrong += 1
                print(f"{os.path.relpath(edit, TOP)}: {why}")
    print(f"edits: {wrong} of {count} don't fit their files" if wrong else f"edits: all {count} fit their files")
    return 1 if wrong else 0


if __name__ == "__main__":
    sys.exit(main())
