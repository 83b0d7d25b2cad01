#!/usr/bin/env python3
"""Writes a C file of about 1 MiB with many macros, or one of the shapes that make a scanner slow."""
import sys

LIMIT = 1_048_576


def macros():
    """Definitions, comments, strings and expressions, as in an old header and its source."""
    lines = ["/* generated */", "#define BASE 16"]
    size = 0
    number = 0
    while size < LIMIT - 600:
        block = [
            f"#define FIELD_{number}(value) (((value) >> {number % 31}) & 0x{number % 255:x}u) // field {number}",
            f"#define NAME_{number} \"name of {number}\\n\"",
            f"#define SWAP_{number}(a, b) do {{ int t = (a); (a) = (b); \\",
            f"    (b) = t; }} while (0) /* swaps {number} */",
            f"static int f{number}(int a, int b) {{",
            f"    SWAP_{number}(a, b); return FIELD_{number}(a + b * BASE) == '{chr(97 + number % 26)}' ? a <<= 2 : b->c[{number}];",
            "}",
        ]
        lines += block
        size += sum(len(line) + 1 for line in block)
        number += 1
    return "\n".join(lines) + "\n"


SHAPES = {
    "macros": macros,
    "line": lambda: "a+b*" * (LIMIT // 4 - 1) + "a;\n",
    "splices": lambda: "\\\n" * (LIMIT // 2 - 1) + "\n",
    "slashes": lambda: "/ " * (LIMIT // 2 - 1) + "\n",
    "apostrophes": lambda: "'" * (LIMIT - 1) + "\n",
    "quotes": lambda: ("\"'" * (LIMIT // 2 - 1)) + "\n",
    "identifier": lambda: "a" * (LIMIT - 1) + "\n",
    "bytes": lambda: ";" * (LIMIT - 1) + "\n",
}

if __name__ == "__main__":
    sys.stdout.write(SHAPES[sys.argv[1]]())
