#!/usr/bin/env python3
"""Compares what `demacro expand` and `gcc -E -P` make of each unit of a project, token by token.

It isn't part of the gate. gcc is told to define no name of its own but the standard's. A unit may include no standard
header, since the tool's built-in ones are others than gcc's.

usage: compare.py [PROGRAM [MANIFEST]]     the built program, and the manifest of the project
"""
import json
import os
import re
import subprocess
import sys

TOP = os.path.dirname(os.path.dirname(os.path.abspath(__file__)))

# Preprocessing tokens (6.4) behind phase 3: words and numbers, literals, and punctuators, the longest first.
TOKEN = re.compile(
    r"""(?:u8|[uUL])?"(?:\\.|[^"\\\n])*"|[uUL]?'(?:\\.|[^'\\\n])*'|\.?[0-9](?:[eEpP][+-]|[A-Za-z0-9_.])*|[A-Za-z_]\w*"""
    r"""|%:%:|\.\.\.|<<=|>>=|->|\+\+|--|<<|>>|<=|>=|==|!=|&&|\|\||[-+*/%&^|]=|\#\#|<:|:>|<%|%>|%:|[^\s]"""
)


def tokens(command, folder):
    """The tokens of what a command puts, which has to end well."""
    ran = subprocess.run(command, cwd=folder, capture_output=True, text=True, check=False)
    if ran.returncode != 0:
        sys.exit(f"{' '.join(command)} ended with status {ran.returncode}: {ran.stdout}{ran.stderr}")
    return TOKEN.findall(ran.stdout)


def gcc(unit):
    """The command of gcc for a unit."""
    folders = [f"-I{folder}" for folder in unit.get("include", [])]
    defines = [f"-D{define}" for define in unit.get("define", [])]
    return ["gcc", "-E", "-P", "-std=c11", "-undef", "-nostdinc", *folders, *defines, unit["file"]]


def compare(program, folder, manifest, unit):
    """Says whether both give the same tokens, and where they part."""
    ours = tokens([program, "expand", manifest, unit["file"]], folder)
    theirs = tokens(gcc(unit), folder)
    if ours == theirs:
        print(f"{unit['file']}: {len(ours)} tokens, all the same")
        return True
    at = next((n for n, pair in enumerate(zip(ours, theirs)) if pair[0] != pair[1]), min(len(ours), len(theirs)))
    print(f"{unit['file']}: token {at} of {len(ours)} and {len(theirs)}: {ours[at:at + 5]}, and gcc's {theirs[at:at + 5]}")
    return False


def main():
    program = os.path.abspath(sys.argv[1] if sys.argv[1:] else os.path.join(TOP, "crates/demacro/out/demacro"))
    path = os.path.abspath(sys.argv[2] if sys.argv[2:] else os.path.join(TOP, "crates/unit_list/data/project.json"))
    with open(path, encoding="utf-8") as file:
        units = json.load(file)["units"]
    folder, manifest = os.path.split(path)
    same = [compare(program, folder, manifest, unit) for unit in units]
    return 0 if all(same) else 1


if __name__ == "__main__":
    sys.exit(main())
