#!/usr/bin/env python3
"""Measures `demacro plan` on a unit with many runs of macros, at two sizes: a line says how long a plan takes, how long one reading of
the unit does (a run of no steps), and what the plan takes of the readings that it counts.

usage: many_runs.py SHAPE PROGRAM FOLDER

SHAPE is `arguments` (all runs are arguments of one call), `commas` (all stand in one comma expression), `nested` (each is the argument of
the next one, a hundred deep), `occurrences` (a parameter occurs two hundred times in each), `parameters` (a macro has many parameters, each of
which occurs once in a run), `places` (a parameter has many places), `empty` (a macro has many parameters, and all arguments are empty), `sums` (they
are operands of sums of two hundred), `definitions` (each run is of another definition), `stored` (of at most 4,096, all kept by rule 14) or
`unused` (4,096 definitions that nothing uses).
"""
import os
import sys

from plans import MAIN, measure

KEPT = "#define SQUARE(x) ((x)*(x))\n"


def arguments(count):
    """Each argument is read beside the others, and beside something that is stored."""
    kinds = ",\n".join("int" for _ in range(count + 1))
    uses = ",\n".join("SQUARE(a)" for _ in range(count))
    return f"{KEPT}int all({kinds});\nstatic int f(int a, int b) {{ int k = all(b++, {uses}); return k + SQUARE(a++); }}\n{MAIN}", 0


def commas(count):
    uses = ",\n".join("SQUARE(a)" for _ in range(count))
    return f"{KEPT}int main(void) {{ int a = 1; a = ({uses}); return SQUARE(a++); }}\n", 0


def nested(count):
    """The macro is kept, since one argument is stored into."""
    deep = "SAME(" * 100 + "a" + ")" * 100
    functions = "".join(f"static int f{number}(int a) {{ return {deep}; }}\n" for number in range(count // 100))
    return "#define SAME(x) (x)\n" + functions + "static int *g(int a) { return &SAME(a); }\n" + MAIN, 0


def occurrences(count):
    body = "(" + ", ".join("(x)" for _ in range(200)) + ")"
    functions = "".join(f"static int f{number}(int a) {{ return MANY(a); }}\n" for number in range(count // 200))
    return f"#define MANY(x) {body}\n" + functions + "static int g(int a) { return MANY(a++); }\n" + MAIN, 0


def parameters(count):
    names = [f"p{number}" for number in range(count // 4)]
    passed = ", ".join("a" for _ in names)
    functions = "".join(f"static int f{number}(int a) {{ return EACH({passed}); }}\n" for number in range(4))
    return f"#define EACH({', '.join(names)}) ({', '.join(names)})\n" + functions + MAIN, 1


def places(count):
    """One parameter has as many places in the replacement list."""
    body = "(" + ", ".join("(x)" for _ in range(count // 4)) + ")"
    functions = "".join(f"static int f{number}(int a) {{ return PLACES(a); }}\n" for number in range(4))
    return f"#define PLACES(x) {body}\n" + functions + MAIN, 1


def empty(count):
    """The arguments are empty, so it is looked for where each would stand."""
    names = [f"p{number}" for number in range(count // 4)]
    body = "0, " + ", ".join(f"{name} 1" for name in names)
    functions = "".join(f"static int f{number}(void) {{ return NONE({',' * (len(names) - 1)}); }}\n" for number in range(4))
    return f"#define NONE({', '.join(names)}) ({body})\n" + functions + MAIN, 0


def sums(count):
    """Operands of sums, each of which has two hundred and is as deep as that."""
    sum_of_runs = " +\n".join("SQUARE(a)" for _ in range(200))
    functions = "".join(f"static int f{number}(int a) {{ return {sum_of_runs}; }}\n" for number in range(count // 200))
    return KEPT + functions + "static int g(int a) { return SQUARE(a++); }\n" + MAIN, 0


MOST = 4096


def stored(count):
    """At most 4,096 definitions, all of which break rule 14."""
    made = "".join(f"#define S{number}(x) ((x)*(x))\n" for number in range(min(count, MOST)))
    functions = "".join(f"static int f{number}(int a) {{ return S{number % MOST}(a++); }}\n" for number in range(count))
    return made + functions + MAIN, 0


def unused(count):
    """At most 4,096 definitions, all of which break rule 4."""
    made = "".join(f"#define K{number} {number}\n" for number in range(min(count, MOST)))
    functions = "".join(f"static int f{number}(int a) {{ return a + {number}; }}\n" for number in range(count))
    return made + functions + MAIN, 0


def definitions(count):
    made = "".join(f"#define S{number}(x) ((x)*(x))\n" for number in range(count))
    functions = "".join(f"static int f{number}(int a) {{ return S{number}(a++); }}\n" for number in range(count))
    return made + functions + MAIN, 0


SHAPES = {
    "arguments": (arguments, [5000, 20000]),
    "commas": (commas, [5000, 20000]),
    "nested": (nested, [5000, 20000]),
    "occurrences": (occurrences, [20000, 80000]),
    "parameters": (parameters, [2000, 8000]),
    "places": (places, [2000, 8000]),
    "empty": (empty, [2000, 8000]),
    "sums": (sums, [2000, 8000]),
    "definitions": (definitions, [1000, 4000]),
    "stored": (stored, [3750, 15_000]),
    "unused": (unused, [5000, 20000]),
}


def main():
    shape, program, folder = sys.argv[1:]
    os.chdir(folder)
    make, sizes = SHAPES[shape]
    for size in sizes:
        text, more = make(size)
        plan, reading, readings, peak = measure(program, {"a.c": text}, more)
        print(f"{shape} {size}: {len(text)} bytes, plan {plan * 1000:.0f} ms, reading {reading * 1000:.0f} ms, {plan / (readings * reading):.2f} of {readings} readings, peak {peak >> 20} MiB", flush=True)


if __name__ == "__main__":
    main()
