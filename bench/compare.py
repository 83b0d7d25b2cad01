#!/usr/bin/env python3
"""Measures the lexer and `gcc -E` on one file: the ratio of their times, and the lexer's peak memory.

A time is the least processor time of five runs, so that it says the same on a busy machine. The peak is the most memory
that was resident at once, less what the same program needs for an empty file, in bytes a byte of source.
"""
import os
import subprocess
import sys
import tempfile
import time


def used(command):
    """The processor time that a run that ends well used, as the user and in the system, the time by the clock, and the peak of
    resident memory in bytes.

    The peak is told by `time`, which is small: a process counts what its parent held when it was started.
    """
    with tempfile.NamedTemporaryFile("r") as told:
        timed = ["/usr/bin/time", "-q", "-f", "%M", "-o", told.name, *command]
        begin = time.monotonic()
        child = subprocess.Popen(timed, stdout=subprocess.DEVNULL, stderr=subprocess.DEVNULL)
        _, status, usage = os.wait4(child.pid, 0)
        wall = time.monotonic() - begin
        child.returncode = os.waitstatus_to_exitcode(status)
        if child.returncode != 0:
            sys.exit(f"{command} ended with status {child.returncode}")
        return usage.ru_utime, usage.ru_stime, wall, int(told.read()) * 1024


def measure(command):
    """The processor time in seconds and the peak of resident memory in bytes of a run that ends well."""
    user, system, _, peak = used(command)
    return user + system, peak


def best(command):
    """The least time and the least peak of five runs."""
    runs = [measure(command) for _ in range(5)]
    return min(time for time, _ in runs), min(peak for _, peak in runs)


def main():
    shape, lexer, path = sys.argv[1:]
    size = os.path.getsize(path)
    ours, peak = best([lexer, path])
    _, floor = best([lexer, os.devnull])
    theirs, _ = best(["gcc", "-E", path])
    print(
        f"{shape}: {ours * 1000:.0f} ms, gcc -E {theirs * 1000:.0f} ms, ratio {ours / theirs:.2f}, "
        f"peak {(peak - floor) / size:.0f} bytes a byte of source"
    )


if __name__ == "__main__":
    main()
