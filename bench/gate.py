#!/usr/bin/env python3
"""Runs the gate, or `rt ci` for some crates and those below them, and says what each crate costs of it, in processor seconds.

usage: gate.py [NAME..]     with no names the gate, .ci/run

A line is put for each crate that was checked, the dearest first: its proof, its tests and its must-fail edits, and the greatest memory of
a check in MiB. The last line is the sum, and how long all took. What an earlier run has kept costs nothing: for a gate from nothing, run it
on a fresh clone on a machine that has kept nothing. Reads /proc, so it is for Linux alone.
"""
import collections
import os
import re
import subprocess
import sys
import time

TOP = os.path.dirname(os.path.dirname(os.path.abspath(__file__)))
TICKS = os.sysconf("SC_CLK_TCK")
EACH = 0.5
KINDS = ["proof", "tests", "edits"]


def read(path):
    try:
        with open(path, "rb") as file:
            return file.read()
    except OSError:
        return b""


def checks():
    """The checks that are running: the number of the process and when it began, the crate, the kind, processor seconds and MiB."""
    for process in filter(str.isdigit, os.listdir("/proc")):
        words = read(f"/proc/{process}/cmdline").decode("utf-8", "replace").split("\0")
        if not words[0].endswith("/rattle") or "--crate-name" not in words:
            continue
        numbers = read(f"/proc/{process}/stat").rpartition(b") ")[2].split()
        if len(numbers) < 20:
            continue
        folder = os.path.realpath(f"/proc/{process}/cwd")
        kind = "tests" if "--test" in words else "proof" if re.search(r"/crates/\w+$", folder) and "must-fail" not in folder else "edits"
        memory = re.search(rb"VmHWM:\s+(\d+)", read(f"/proc/{process}/status"))
        seconds = sum(map(int, numbers[11:15])) / TICKS
        yield (process, numbers[19]), words[words.index("--crate-name") + 1], kind, seconds, int(memory[1]) >> 10 if memory else 0


def watch(command):
    """Runs a command. Gives the last that was seen of each check, how long the command took, and its status."""
    seen, began = {}, time.monotonic()
    with subprocess.Popen(command, cwd=TOP) as running:
        while running.poll() is None:
            for process, *rest in checks():
                seen[process] = rest
            time.sleep(EACH)
    return seen.values(), time.monotonic() - began, running.returncode


def main(names):
    found, took, status = watch(["rt", "ci", *names] if names else ["bash", ".ci/run"])
    costs, most = collections.defaultdict(collections.Counter), collections.Counter()
    for name, kind, seconds, memory in found:
        costs[name][kind] += seconds
        most[name] = max(most[name], memory)
    for name in sorted(costs, key=lambda name: -sum(costs[name].values())):
        parts = ", ".join(f"{kind} {costs[name][kind]:.0f} s" for kind in KINDS if costs[name][kind])
        print(f"{name}: {sum(costs[name].values()):.0f} s ({parts}), {most[name]} MiB")
    print(f"{sum(sum(cost.values()) for cost in costs.values()) / 60:.0f} processor minutes, {took / 60:.0f} minutes")
    return status


if __name__ == "__main__":
    sys.exit(main(sys.argv[1:]))
