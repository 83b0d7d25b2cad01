#!/usr/bin/env python3
"""Measures `demacro plan` on a project, against the readings that it counts: each unit once, and for each definition that becomes a
declaration each unit that reads its file once more. A reading is measured as a run of no steps.

usage: plans.py SHAPE PROGRAM FOLDER

SHAPE is `constants` or `functions` (one unit, each definition used once and rewritten), `generated` (the unit of `gen`), `kept` (one
unit with definitions that nothing uses) or `shared` (40 units over 20 headers with 300 definitions). All but the last are measured at
two sizes.
"""
import json
import os
import subprocess
import sys

from compare import best

MAIN = "int main(void) { return 0; }\n"


def unit_of(count, definition, use):
    """A unit with so many definitions, each used in a function of its own."""
    functions = "".join(f"static int h{number}(int a) {{ return {use(number)}; }}\n" for number in range(count))
    return "".join(definition(number) for number in range(count)) + functions + MAIN


def constants(count):
    return {"a.c": unit_of(count, lambda number: f"#define C{number} {number}\n", lambda number: f"a + C{number}")}, count


def functions(count):
    return {"a.c": unit_of(count, lambda number: f"#define F{number}(x) ((x)+{number})\n", lambda number: f"F{number}(a)")}, count


def kept(count):
    return {"a.c": unit_of(count, lambda number: f"#define K{number} {number}\n", lambda number: f"a + {number}")}, 0


def generated(count):
    """Three of four macros are rewritten, as the summary of `gen` says."""
    definitions = [lambda n: f"#define C{n} {n}\n", lambda n: f"#define F{n}(x) ((x)+{n})\n", lambda n: f"#define S{n}(x) ((x)*(x))\n", lambda n: f"#define U{n} {n}u\n"]
    uses = [lambda n: f"a + C{n}", lambda n: f"F{n}(a)", lambda n: f"a + S{n}(next())", lambda n: f"a + (int)U{n}"]
    text = unit_of(count, lambda n: definitions[n % 4](n), lambda n: uses[n % 4](n))
    return {"a.c": "static int next(void) { return 1; }\n" + text}, count - count // 4


def shared(units, headers=20, each=15):
    """Each header has macros of which two of three are rewritten, and each unit includes all headers and uses all macros."""
    files = {}
    for header in range(headers):
        lines = [f"#ifndef H{header}\n#define H{header}\n"]
        for number in range(each):
            name = f"{header}_{number}"
            lines.append([f"#define C{name} {number}\n", f"#define F{name}(x) ((x)+{number})\n", f"#define S{name}(x) ((x)*(x))\n"][number % 3])
        files[f"h{header}.h"] = "".join(lines) + "#endif\n"
    includes = "".join(f'#include "h{header}.h"\n' for header in range(headers))
    names = [(number, f"{header}_{number}") for header in range(headers) for number in range(each)]
    uses = "".join(f"static int f{name}(int a) {{ return {[f'C{name} + a', f'F{name}(a)', f'S{name}(a++)'][number % 3]}; }}\n" for number, name in names)
    for unit in range(units):
        files[f"u{unit}.c"] = includes + uses + MAIN
    return files, units * sum(number % 3 != 2 for number, _ in names)


def measure(program, files, more):
    """Seconds of a plan and of one reading, how many readings a plan makes, and the peak of memory in bytes."""
    units = [name for name in files if name.endswith(".c")]
    with open("m.json", "w", encoding="utf-8") as manifest:
        json.dump({"units": [{"file": name} for name in units]}, manifest)
    for name, text in files.items():
        with open(name, "w", encoding="utf-8") as file:
            file.write(text)
    plan, peak = best([program, "plan", "m.json"])
    reading, _ = best([program, "run", "m.json", units[0], "--steps", "0"])
    return plan, reading, len(units) + more, peak


def main():
    shape, program, folder = sys.argv[1:]
    os.chdir(folder)
    make, sizes = {"constants": (constants, [100, 400]), "functions": (functions, [100, 400]), "generated": (generated, [100, 400]), "kept": (kept, [1000, 4000]), "shared": (shared, [40])}[shape]
    for size in sizes:
        plan, reading, count, peak = measure(program, *make(size))
        print(f"{shape} {size}: {plan:.2f} s, {plan / (reading * count):.2f} of its {count} readings of {reading * 1000:.1f} ms, peak {peak / 1048576:.1f} MiB")
    sys.stdout.flush()


if __name__ == "__main__":
    main()
