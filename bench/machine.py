#!/usr/bin/env python3
"""Measures `demacro run` on a program of programs.py: steps a second, in a program of one size and of ten times its text.

usage: machine.py SHAPE PROGRAM FOLDER
"""
import os
import subprocess
import sys

from compare import best

STEPS = 1_500_000


def rate(program, name):
    """Steps a second, without the time in which the program is read, and the peak of memory in bytes."""
    whole, peak = best([program, "run", name, name, "--steps", str(STEPS)])
    reading, _ = best([program, "run", name, name, "--steps", "0"])
    return STEPS / (whole - reading), peak


def main():
    shape, program, folder = sys.argv[1:]
    here = os.path.dirname(os.path.abspath(__file__))
    os.chdir(folder)
    for length in ["1", "10"]:
        with open(f"{shape}{length}.c", "wb") as file:
            subprocess.run([sys.executable, f"{here}/programs.py", shape, length], stdout=file, check=True)
    short, peak = rate(program, f"{shape}1.c")
    long, _ = rate(program, f"{shape}10.c")
    print(f"{shape}: {short / 1e6:.2f} million steps a second, with ten times the text {long / 1e6:.2f}, peak {peak / 1048576:.1f} MiB")


if __name__ == "__main__":
    main()
