#!/usr/bin/env python3
"""Measures `demacro expand`, `gcc -E` and `tcc -E` on one unit, whose main file is `main.c` in a folder.

Times and peaks are measured as in compare.py. The peak is given a token of the unit's list.
"""
import os
import shutil
import subprocess
import sys

from compare import best


def main():
    shape, program, folder = sys.argv[1:]
    os.chdir(folder)
    with open("empty.c", "w", encoding="ascii"):
        pass
    tool = [program, "expand", "main.c", "main.c"]
    put = subprocess.run(tool, capture_output=True, check=True).stdout
    count = len(put.split()) or 1
    ours, peak = best(tool)
    _, floor = best([program, "expand", "empty.c", "empty.c"])
    others = []
    for name in ["gcc", "tcc"]:
        command = [name, "-E", "-P", "main.c"]
        if not shutil.which(name):
            others.append(f"no {name}")
        elif subprocess.run(command, capture_output=True, check=False).returncode != 0:
            others.append(f"{name} -E fails")
        else:
            theirs, _ = best(command)
            others.append(f"{name} -E {theirs * 1000:.0f} ms, ratio {ours / theirs:.2f}")
    print(
        f"{shape}: {count} tokens, {ours * 1000:.0f} ms, {', '.join(others)}, "
        f"peak {(peak - floor) / 1048576:.1f} MiB, {(peak - floor) / count:.0f} bytes a token"
    )


if __name__ == "__main__":
    main()
