#!/usr/bin/env python3
"""Refuses a built program one call for memory after the other, and reports each end that isn't the documented one.

usage: memory.py PROGRAM [--most N]

The first refused call is number 0, then 1, and so on, until the command ends as it does when nothing is refused, or N calls were. Where a
call is refused the status has to be 8, nothing is put, and no file changes; or all is as when nothing is refused, where the program could
do without. Needs gcc, for the calls that refuse.
"""
import argparse
import os
import subprocess
import sys
import tempfile

REFUSING = r"""
#define _GNU_SOURCE
#include <dlfcn.h>
#include <errno.h>
#include <stddef.h>
#include <stdlib.h>

static long left = -1;

__attribute__((constructor)) static void begin(void) {
    const char *number = getenv("REFUSED");
    left = number ? atol(number) : -1;
}

static int refused(void) { return left >= 0 && left-- == 0; }

#define PASS(name, type, parameters, arguments) \
    type name parameters { \
        static type (*real) parameters; \
        if (!real) real = (type (*) parameters)dlsym(RTLD_NEXT, #name); \
        if (refused()) { errno = ENOMEM; return 0; } \
        return real arguments; \
    }

PASS(malloc, void *, (size_t size), (size))
PASS(realloc, void *, (void *old, size_t size), (old, size))
PASS(aligned_alloc, void *, (size_t alignment, size_t size), (alignment, size))

int posix_memalign(void **to, size_t alignment, size_t size) {
    static int (*real)(void **, size_t, size_t);
    if (!real) real = (int (*)(void **, size_t, size_t))dlsym(RTLD_NEXT, "posix_memalign");
    return refused() ? ENOMEM : real(to, alignment, size);
}
"""

FILES = {
    "m.json": '{"units": [{"file": "a.c"}, {"file": "b.c", "include": ["inc"], "define": ["D=1"]}]}\n',
    "h.h": "#ifndef H\n#define H\n#define SIZE 8\n#define TWICE(x) ((x) + (x))\n#define LOG(...) puts(__VA_ARGS__)\nint f(int a);\n#endif\n",
    "inc/i.h": "#define LIMIT 10u\n",
    "a.c": '#include <stdio.h>\n#include "h.h"\nstatic char row[SIZE];\nint main(void) {\n    LOG("x");\n    row[0] = (char)f(TWICE(2));\n    return row[0];\n}\n',
    "b.c": '#include "h.h"\n#include <i.h>\nint f(int a) {\n    unsigned int n = LIMIT;\n    switch (a) { case SIZE: return D; default: return (int)n + TWICE(a); }\n}\n',
}
ONE = {"a.c": '#include <stdio.h>\n#define SQ(x) ((x)*(x))\nint main(void) { struct { int a[3]; } s = { { 1 } }; putchar(SQ(s.a[0]) + 64); return getchar(); }\n', "in": "7"}
COMMANDS = [
    (FILES, ["plan", "m.json"]),
    (FILES, ["plan", "m.json", "--json"]),
    (FILES, ["apply", "m.json"]),
    (FILES, ["expand", "m.json", "b.c"]),
    (ONE, ["run", "a.c", "a.c", "--input", "in", "--order", "1"]),
    (ONE, ["gen", "4"]),
]


def run(program, words, files, variables):
    """The status, the output and the files behind a command."""
    with tempfile.TemporaryDirectory() as folder:
        for name, text in files.items():
            os.makedirs(os.path.dirname(os.path.join(folder, name)), exist_ok=True)
            with open(os.path.join(folder, name), "w", encoding="utf-8") as file:
                file.write(text)
        ran = subprocess.run([program, *words], cwd=folder, env={**os.environ, **variables}, stdin=subprocess.DEVNULL, stdout=subprocess.PIPE, stderr=subprocess.PIPE, timeout=60, check=False)
        after = {}
        for name in files:
            with open(os.path.join(folder, name), encoding="utf-8") as file:
                after[name] = file.read()
    return ran.returncode, ran.stdout, after


def refuse_each(program, library, files, words, most):
    """How many calls were refused, and what was wrong."""
    whole = run(program, words, files, {})
    wrong, behind = [], 0
    for number in range(most):
        found = run(program, words, files, {"LD_PRELOAD": library, "REFUSED": str(number)})
        behind = behind + 1 if found == whole else 0
        if behind == 50:
            return number - 49, wrong
        if found not in (whole, (8, b"", files)):
            wrong.append(f"{' '.join(words)}, call {number}: status {found[0]}, {found[1][:100]!r}, {'files changed' if found[2] != files else ''}")
    return most, wrong


def main(words):
    parser = argparse.ArgumentParser(description=__doc__.split("\n", maxsplit=1)[0])
    parser.add_argument("program")
    parser.add_argument("--most", type=int, default=5000)
    given = parser.parse_args(words)
    program, status = os.path.realpath(given.program), 0
    with tempfile.TemporaryDirectory() as folder:
        library = os.path.join(folder, "refusing.so")
        subprocess.run(["gcc", "-O1", "-fno-builtin", "-shared", "-fPIC", "-x", "c", "-", "-o", library, "-ldl"], input=REFUSING.encode(), check=True)
        for files, command in COMMANDS:
            count, wrong = refuse_each(program, library, files, command, given.most)
            print(f"{' '.join(command)}: {count} calls refused, {len(wrong)} wrong ends", *wrong[:10], sep="\n  ")
            status = status or bool(wrong)
    return int(status)


if __name__ == "__main__":
    sys.exit(main(sys.argv[1:]))
