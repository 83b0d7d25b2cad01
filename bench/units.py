#!/usr/bin/env python3
"""Writes a unit whose preprocessing is measured: its main file is `main.c` in a folder.

usage: units.py SHAPE FOLDER
"""
import os
import sys

LIMIT = 1_048_576


def nested():
    """About 500,000 tokens out of function-like macros within each other."""
    lines = ["#define A(x) ((x) + 1)", "#define B(x) (A(x) * A(x))", "#define C(x) (B(x) - B(x))"]
    lines += [f"int f{number}(int a) {{ return C(B(a)); }}" for number in range(2_500)]
    return {"main.c": lines}


def chain():
    """Object-like macros, each of which gives the next."""
    lines = [f"#define A{number} A{number + 1}" for number in range(1_000)] + ["#define A1000 1"]
    return {"main.c": lines + ["int a = A0;"] * 2_000}


def arguments():
    """A macro with 100 arguments of 1,000 tokens each."""
    names = ", ".join(f"a{number}" for number in range(100))
    body = " ".join(f"a{number}" for number in range(100))
    argument = " ".join(["x"] * 1_000)
    return {"main.c": [f"#define F({names}) {body}", "F(" + ",\n".join([argument] * 100) + ")"]}


def pastes():
    """`#` and `##` in every line."""
    lines = ["#define JOIN(a, b) a ## b", "#define TEXT(a) #a", "#define BOTH(a, b) JOIN(a, b) TEXT(a b)"]
    return {"main.c": lines + [f"BOTH(x{number}, y) BOTH(p, {number})" for number in range(20_000)]}


def doubling():
    """A ladder in which each macro gives the one below it twice."""
    lines = ["#define D0 x"] + [f"#define D{number} D{number - 1} D{number - 1}" for number in range(1, 19)]
    return {"main.c": lines + ["D18"]}


def deep():
    """1,000 invocations, each in the argument of the one before."""
    return {"main.c": ["#define F(x) x", "int a = " + "F(" * 1_000 + "1" + ")" * 1_000 + ";"]}


def wide():
    """A replacement list of 20,000 tokens for a macro with 100 parameters."""
    names = ", ".join(f"p{number}" for number in range(100))
    body = " + ".join(f"p{number % 100}" for number in range(10_000))
    arguments = ", ".join(str(number) for number in range(100))
    return {"main.c": [f"#define W({names}) {body}", f"int a = W({arguments});"]}


def headers():
    """64 headers within each other, each of some lines."""
    files = {"main.c": ['#include "h1.h"', "int main_is_read;"]}
    for number in range(1, 65):
        more = [f'#include "h{number + 1}.h"'] if number < 64 else []
        lines = [f"#define N{number}_{line}(a) ((a) + {line})" for line in range(100)]
        uses = [f"int v{number}_{line} = N{number}_{line}({number});" for line in range(100)]
        files[f"h{number}.h"] = [f"#ifndef H{number}", f"#define H{number}", *more, *lines, *uses, "#endif"]
    return files


def inclusions():
    """16,384 inclusions of one small header with a guard."""
    header = ["#ifndef H", "#define H", "#define N 1", "int h(int a);", "struct s { int a, b; };", "#endif"]
    return {"main.c": ['#include "h.h"'] * 16_384, "h.h": header}


def objects():
    """4,000 object-like definitions in a header, and 20,000 uses."""
    header = [f"#define NAME_{number} {number}" for number in range(4_000)]
    uses = [f"int a{number} = NAME_{number * 7 % 4_000};" for number in range(20_000)]
    return {"main.c": ['#include "h.h"', *uses], "h.h": header}


def skipped():
    """1 MiB that is skipped in one group."""
    line = "int skipped(int a, int b) { return a * b + 'c' - \"text\"[1]; } /* and a comment */"
    return {"main.c": ["#if 0"] + [line] * ((LIMIT - 100) // (len(line) + 1)) + ["#endif", "int a;"]}


SHAPES = [nested, chain, arguments, pastes, doubling, deep, wide, headers, inclusions, objects, skipped]


def main():
    shape, folder = sys.argv[1:]
    for name, lines in next(it for it in SHAPES if it.__name__ == shape)().items():
        with open(os.path.join(folder, name), "w", encoding="ascii") as file:
            file.write("\n".join(lines) + "\n")


if __name__ == "__main__":
    main()
