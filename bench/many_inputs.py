#!/usr/bin/env python3
"""Feeds a built program very many small inputs in few processes, and reports each end that isn't documented.

usage: many_inputs.py OBJECT.. [--inputs N] [--seed N] [--jobs N] [--show NUMBER FOLDER] [--archive FILE]

An OBJECT is a file that the gate leaves, `crates/demacro/out/demacro.o` or `demacro.by-rattle.o`; each is linked with the C files in
many_inputs/, which say what is tried. A report has the number of the input; `--show` writes the files of an input into a folder, and puts
its words. `--archive` names a further archive to link, as the run-time library of a sanitizer. Needs gcc, objcopy and the kit.

Where a call ends in a documented way, also these are looked at: the report, line by line, against the lines that changed; that `plan` foresees
`apply`; that behind `apply` the project is read again and has tokens, and for some inputs that its program does nothing new; that all
memory is given back; and for some inputs, the end where a call for memory or a write is refused.
"""
import argparse
import os
import resource
import shutil
import subprocess
import sys
import tempfile
import time

HERE = os.path.dirname(os.path.abspath(__file__))
TOP = os.path.dirname(HERE)
SOURCES = os.path.join(HERE, "many_inputs")
CORPUS = [["examples", "examples/stubs"], ["crates/unit_list/data/src", "crates/unit_list/data/include"]]
TARGET = "x86_64-unknown-linux-gnu"
STACK = 8 << 20


def kit():
    """The folder of the kit."""
    return os.path.dirname(subprocess.run(["rt", "doc"], capture_output=True, text=True, check=True).stdout.strip())


def link(program, archives, folder):
    """The program of an object file, with what calls it."""
    names = sorted(name for name in os.listdir(SOURCES) if name.endswith(".c"))
    objects = [os.path.join(folder, name + ".o") for name in names]
    for name, made in zip(names, objects):
        subprocess.run(["gcc", "-std=gnu11", "-Wall", "-Wextra", "-O2", "-fPIE", "-c", os.path.join(SOURCES, name), "-o", made], check=True)
    renamed, heap, to = (os.path.join(folder, name) for name in ("demacro.o", "heap.a", "many_inputs"))
    subprocess.run(["objcopy", "--redefine-sym", "main=demacro_main", program, renamed], check=True)
    counted = [word for name in ("malloc", "realloc", "free") for word in ("--redefine-sym", f"{name}=counted_{name}")]
    subprocess.run(["objcopy", *counted, os.path.join(kit(), "c", "liblibc_c.a"), heap], check=True)
    files = [*objects, renamed, os.path.join(kit(), "c", "libos_c.a"), heap, *archives]
    subprocess.run([os.path.join(kit(), "bin", "rattle-link"), "--target", TARGET, "--toolchain", os.path.join(kit(), "toolchain"), "-o", to, *files], check=True, stderr=subprocess.PIPE)
    return to


def flatten(folder):
    """The texts that are changed: a folder for each project, with all its files."""
    for number, parts in enumerate(CORPUS):
        project = os.path.join(folder, str(number))
        os.makedirs(project)
        for part in parts:
            for name in sorted(os.listdir(os.path.join(TOP, part))):
                if name.endswith((".c", ".h")):
                    shutil.copy(os.path.join(TOP, part, name), project)
    return folder


def limit():
    """The stack that the program has."""
    resource.setrlimit(resource.RLIMIT_STACK, (STACK, STACK))
    resource.setrlimit(resource.RLIMIT_CORE, (0, 0))


def start(program, corpus, rooms, given):
    """Starts a process for each share of the inputs, in a folder in memory."""
    share = -(-given.inputs // given.jobs)
    for number in range(given.jobs):
        first, count = given.seed + number * share, min(share, given.inputs - number * share)
        room = os.path.join(rooms, str(number))
        os.mkdir(room)
        yield subprocess.Popen([program, room, corpus, str(first), str(max(0, count))], stdin=subprocess.DEVNULL, stdout=subprocess.PIPE, text=True, errors="replace", preexec_fn=limit)


def add_up(processes):
    """What the processes counted; faults are printed as they come, and the slowest input."""
    counts, slowest, lost = {}, (0.0, 0), 0
    for process in processes:
        for line in process.stdout:
            kind, _, rest = line.rstrip("\n").partition(" ")
            number, _, key = rest.partition(" ")
            if kind == "count":
                counts[key] = counts.get(key, 0) + int(number)
            elif kind == "slowest":
                slowest = max(slowest, (float(number), int(key)))
            else:
                print(line, end="", flush=True)
        lost += process.wait() != 0
    return counts, slowest, lost


def try_object(program, corpus, given):
    """Tries all inputs on an object file; the status is 0 where nothing was wrong."""
    memory = "/dev/shm" if os.path.isdir("/dev/shm") else None
    before = time.monotonic(), resource.getrusage(resource.RUSAGE_CHILDREN)
    with tempfile.TemporaryDirectory() as folder, tempfile.TemporaryDirectory(dir=memory) as rooms:
        counts, slowest, lost = add_up(list(start(link(program, given.archive, folder), corpus, rooms, given)))
    after = resource.getrusage(resource.RUSAGE_CHILDREN)
    used = after.ru_utime + after.ru_stime - before[1].ru_utime - before[1].ru_stime
    print(f"{program}: {counts.get('inputs', 0)} inputs, {counts.get('faults', 0)} faults, {lost} processes lost, {used:.0f} s of processor in {time.monotonic() - before[0]:.0f} s")
    for key in sorted(set(counts) - {"inputs", "faults"}):
        print(f"  {counts[key]:9} {key}")
    print(f"  slowest: input {slowest[1]} with {slowest[0]:.3f} s")
    return int(bool(lost or counts.get("faults")))


def show(program, corpus, given):
    number, to = given.show
    os.makedirs(to, exist_ok=True)
    with tempfile.TemporaryDirectory() as folder:
        subprocess.run([link(program, given.archive, folder), to, corpus, number], check=True)


def main(words):
    parser = argparse.ArgumentParser(description="Feeds a built program very many small inputs.")
    parser.add_argument("objects", nargs="+", metavar="OBJECT")
    parser.add_argument("--inputs", type=int, default=100_000)
    parser.add_argument("--seed", type=int, default=0, help="the number of the first input")
    parser.add_argument("--jobs", type=int, default=os.cpu_count())
    parser.add_argument("--show", nargs=2, metavar=("NUMBER", "FOLDER"))
    parser.add_argument("--archive", action="append", default=[])
    given = parser.parse_args(words)
    with tempfile.TemporaryDirectory() as folder:
        corpus = flatten(os.path.join(folder, "corpus"))
        if given.show:
            show(given.objects[0], corpus, given)
            return 0
        return max([try_object(program, corpus, given) for program in given.objects])


if __name__ == "__main__":
    sys.exit(main(sys.argv[1:]))
