#!/usr/bin/env python3
"""Proves the crates that a program stands on, side by side, and builds the program.

    python3 tools/build.py [--jobs N] [--program NAME] [install FOLDER]

A crate is proved as soon as those below it are. N is how many at once: by default as many as there are processors, and
as memory allows. A line says which crate is done, how long that took, how many are left, and how long all has taken. What
is proved stays in crates/*/out, so a run that was cut off goes on where it was. `install` copies the program to FOLDER/bin and its
manual page to FOLDER/share/man/man1. The status is 0, or that of the first crate that fails, whose messages are printed.
"""

import argparse
import concurrent.futures
import os
import shutil
import subprocess
import sys
import time

TOP = os.path.dirname(os.path.dirname(os.path.abspath(__file__)))
BYTES_FOR_A_CHECK = 4 << 30


def crates():
    """The crates of the repository, each with those that it uses."""
    with open(os.path.join(TOP, "crates.txt"), encoding="utf-8") as lines:
        parts = [line.split("#")[0].partition(":") for line in lines]
    listed = {name.split()[0]: used.split() for name, colon, used in parts if colon}
    return {name: [one for one in used if one in listed] for name, used in listed.items()}


def below(used, program):
    """The crates that a program stands on, each behind those that it uses."""
    found = {}
    waiting = [program]
    while waiting:
        name = waiting[-1]
        missing = [one for one in used[name] if one not in found]
        if not missing:
            found[waiting.pop()] = None
        waiting.extend(missing)
    return [name for name in found if name != program]


def heights(used, names):
    """How many crates stand above each of some crates in the longest chain; the highest are proved first."""
    height = dict.fromkeys(names, 0)
    for name in reversed(names):
        for one in used[name]:
            height[one] = max(height[one], height[name] + 1)
    return height


def jobs_that_fit():
    """How many checks the processors and the memory of this machine allow."""
    memory = os.sysconf("SC_PAGE_SIZE") * os.sysconf("SC_PHYS_PAGES")
    return max(1, min(os.cpu_count() or 1, memory // BYTES_FOR_A_CHECK))


def prove(name):
    """Proves a crate, and answers the seconds, the status and the messages."""
    began = time.monotonic()
    ran = subprocess.run(["rt", "lib"], cwd=os.path.join(TOP, "crates", name), stdout=subprocess.PIPE, stderr=subprocess.STDOUT, text=True, check=False)
    return time.monotonic() - began, ran.returncode, ran.stdout


def minutes(seconds):
    return f"{int(seconds) // 60}:{int(seconds) % 60:02}"


def prove_all(used, names, jobs):
    """Proves crates, each as soon as those below it are; the status is that of the first that fails."""
    began, height, waiting, running, done = time.monotonic(), heights(used, names), list(names), {}, set()
    with concurrent.futures.ThreadPoolExecutor(jobs) as pool:
        while waiting or running:
            ready = [name for name in waiting if done.issuperset(used[name])]
            for name in sorted(ready, key=height.get, reverse=True)[: jobs - len(running)]:
                waiting.remove(name)
                running[pool.submit(prove, name)] = name
            for ended in concurrent.futures.wait(running, return_when=concurrent.futures.FIRST_COMPLETED).done:
                name = running.pop(ended)
                seconds, status, messages = ended.result()
                if status != 0:
                    print(messages, f"{name} is not proved.", sep="\n", flush=True)
                    return status
                done.add(name)
                print(f"{name}: {seconds:.0f} s, {len(names) - len(done)} left, {minutes(time.monotonic() - began)} so far", flush=True)
    return 0


def build(program):
    """Proves and links the program itself. It is run once on no words, where it puts its usage line."""
    folder = os.path.join(TOP, "crates", program)
    built = os.path.join(folder, "out", program)
    if os.path.exists(built):
        os.remove(built)
    ran = subprocess.run(["rt", "run"], cwd=folder, stdout=subprocess.PIPE, stderr=subprocess.STDOUT, text=True, check=False)
    if os.path.exists(built):
        return 0
    print(ran.stdout)
    return ran.returncode or 2


def install(program, prefix):
    """Copies the program and its manual page."""
    for source, folder, mode in ((f"crates/{program}/out/{program}", "bin", 0o755), (f"docs/{program}.1", "share/man/man1", 0o644)):
        target = os.path.join(prefix, folder)
        os.makedirs(target, exist_ok=True)
        copied = shutil.copy(os.path.join(TOP, source), target)
        os.chmod(copied, mode)
        print(copied)


def main(words):
    parser = argparse.ArgumentParser(description="Proves and builds the program.")
    parser.add_argument("--jobs", type=int, default=jobs_that_fit(), help="how many crates at once")
    parser.add_argument("--program", default="demacro", help="the program's crate")
    parser.add_argument("install", nargs="*", metavar="install FOLDER", help="copy the program there")
    given = parser.parse_args(words)
    if given.install and (len(given.install) != 2 or given.install[0] != "install"):
        parser.error("what is wanted is `install FOLDER`, or nothing")
    used = crates()
    names = below(used, given.program)
    print(f"{len(names)} crates below {given.program}, {given.jobs} at once", flush=True)
    status = prove_all(used, names, given.jobs) or build(given.program)
    if status == 0 and given.install:
        install(given.program, given.install[1])
    return status


if __name__ == "__main__":
    sys.exit(main(sys.argv[1:]))
