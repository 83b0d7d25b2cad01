#!/usr/bin/env python3
"""Feeds a built program random bytes, cut and changed C files, manifests and words, and reports each end that isn't documented.

usage: fuzz.py PROGRAM [--inputs N] [--seed N] [--jobs N] [--deep] [--memory MIB]

An end is reported where the status is none of 0 to 8, a signal or the time limit ends the program, what is put hasn't the form of the
status, a file changes where none may, another file appears, or lines come or go by `apply`. A report has the number of the input, by
which it is made again (`--seed NUMBER --inputs 1`). With `--deep` the inputs are the few that nest or repeat something very often.
"""
import argparse
import concurrent.futures
import itertools
import os
import random
import re
import resource
import shutil
import subprocess
import sys
import tempfile

TOP = os.path.dirname(os.path.dirname(os.path.abspath(__file__)))
SECONDS = 60
STACK = 8 << 20
BATCH = 1000
CORPUS = ["examples", "examples/stubs", "crates/unit_list/data/src", "crates/unit_list/data/include"]
NAME = rb"[A-Za-z0-9_+./<>-]*"
FORMS = {
    1: rb"usage: demacro [^\n]*\n",
    2: rb"manifest M[1-8] [^\n]*\n",
    3: NAME + rb":\d+:\d+: refusal \d+ [A-Za-z]+( C\d+)?\n",
    4: rb"limit L\d+ [^\n]*\n",
    5: rb"read fault [^\n]*\n",
    6: rb"write fault [^\n]*\n",
    8: rb"",
}
WORDS = ["plan", "apply", "expand", "run", "gen", "a.c", "m.json", "h.h", "--json", "--order", "--order=1", "--steps=100", "--input", "--", "--help", "-h", "3", "18446744073709551616", "", "é", "no.c", "../a.c"]
PIECES = [
    b"#define M(x) ((x)+(x))\n", b"#define N 3\n", b"#define E\n", b"#undef N\n", b"#if N\n", b"#endif\n", b"#else\n", b'#include "h.h"\n', b"M(", b")", b"(", b"{", b"}", b";", b",", b"#", b"##",
    b"\\\n", b"/*", b"*/", b"//", b'"', b"'", b"??/", b"N", b"M(N)", b"int ", b"struct s { int a; };\n", b"return ", b"sizeof ", b"0x", b"1u", b"'a'", b"case ", b"static ", b"enum { ", b"?", b":", b"=", b"\0", b"\xff", b"\r\n", b"\t",
]


def corpus():
    """The texts that are changed."""
    texts = []
    for folder in CORPUS:
        for name in sorted(os.listdir(os.path.join(TOP, folder))):
            if name.endswith((".c", ".h")):
                with open(os.path.join(TOP, folder, name), "rb") as file:
                    texts.append(file.read())
    return texts


def changed(chance, text, texts):
    """A text with one change."""
    first, second = sorted(chance.randrange(len(text) + 1) for _ in range(2))
    second = min(second, first + chance.choice([1, 10, 200]))
    kind = chance.randrange(6)
    if kind == 0:
        return text[:first]
    if kind == 1:
        return text[:first] + text[second:]
    if kind == 2:
        return text[:second] + text[first:]
    if kind == 3:
        return text[:first] + bytes([chance.randrange(256)]) + text[first + 1 :]
    if kind == 4:
        other = chance.choice(texts)
        at = chance.randrange(len(other) + 1)
        return text[:first] + other[at : at + chance.choice([20, 200])] + text[second:]
    return text[:first] + chance.choice(PIECES) + text[second:]


def text_of(chance, texts):
    """The text of a file: random bytes, pieces one behind the other, or a text of the corpus with some changes."""
    kind = chance.random()
    if kind < 0.05:
        return chance.randbytes(chance.randrange(200))
    if kind < 0.25:
        return b"".join(chance.choice(PIECES) for _ in range(chance.randrange(60)))
    text = chance.choice(texts)
    for _ in range(chance.choice([0, 1, 1, 2, 5])):
        text = changed(chance, text, texts)
    return text


def manifest_of(chance):
    text = b'{"units": [{"file": "a.c", "include": ["."], "define": ["N=3"]}, {"file": "b.c"}]}'
    for _ in range(chance.choice([0, 0, 1, 3])):
        text = changed(chance, text, [text])
    return text


def words_of(chance):
    kind = chance.random()
    if kind < 0.1:
        return [chance.choice(WORDS) for _ in range(chance.randrange(6))]
    project = chance.choice(["a.c", "a.c", "m.json"])
    command = chance.choice(["plan", "apply", "apply", "expand", "run"])
    more = ["a.c"] if command in ("expand", "run") else chance.choice([[], ["--json"]])
    return [command, project, *more, *(["--steps", "1000"] if command == "run" else [])]


def input_of(number, texts):
    """The files and the words of an input."""
    chance = random.Random(number)
    files = {"a.c": text_of(chance, texts), "b.c": text_of(chance, texts), "h.h": text_of(chance, texts), "m.json": manifest_of(chance)}
    return files, words_of(chance)


def deep_inputs():
    """Texts that nest or repeat something very often."""
    many = 1_000_000
    body = {
        "parentheses": b"int a = " + b"(" * many + b"1" + b")" * many + b";\n",
        "operators": b"int a = 1" + b"+1" * (many // 4) + b";\n",
        "commas": b"int f(void) { return " + b"1," * (many // 4) + b"1; }\n",
        "stars": b"int " + b"*" * many + b"p;\n",
        "braces": b"int f(void) " + b"{" * many + b"}" * many + b"\n",
        "groups": b"#if 1\n" * 80_000 + b"int a;\n" + b"#endif\n" * 80_000,
        "skipped": b"#if 0\n" * 80_000 + b"int a;\n" + b"#endif\n" * 80_000,
        "structs": b"".join(b"struct s%d { struct s%d *p; };\n" % (number, number + 1) for number in range(30_000)),
        "invocations": b"#define F(x) x\nint a = " + b"F(" * 300_000 + b"1" + b")" * 300_000 + b";\n",
        "invocations in second arguments": b"#define F(x, y) y\nint a = " + b"F(2, " * 150_000 + b"1" + b")" * 150_000 + b";\n",
        "invocations in a replacement": b"#define F(x) x\n#define B " + b"F(" * 60_000 + b"1" + b")" * 60_000 + b"\nint a = B;\n",
        "invocations that a replacement opens": b"#define F(x) x\n#define G F(\nint a = " + b"G(" * 20_000 + b"1" + b"))" * 20_000 + b";\n",
        "within itself": b"#define INC(x) ((x)+1)\nint a = " + b"INC(" * 500 + b"1" + b")" * 500 + b";\n",
        "minus": b"int f(int a) { return " + b"-" * many + b"a; }\n",
        "quotes": b"char *s = " + b'"a" ' * (many // 4) + b";\n",
        "definitions": b"".join(b"#define N%d 1\n" % number for number in range(4096)),
        "one line": b"int a;" * (many // 6) + b"\n",
    }
    return [(f"{name}, {' '.join(words)}", {"a.c": text}, words) for name, text in body.items() for words in (["expand", "a.c", "a.c"], ["plan", "a.c"], ["apply", "a.c"], ["run", "a.c", "a.c"])]


def run(program, folder, words, memory):
    """The status and the output of the program in a folder; a signal is a status below 0, the time limit none."""

    def limit():
        resource.setrlimit(resource.RLIMIT_STACK, (STACK, STACK))
        resource.setrlimit(resource.RLIMIT_CORE, (0, 0))
        if memory is not None:
            resource.setrlimit(resource.RLIMIT_AS, (memory << 20, memory << 20))

    try:
        ran = subprocess.run([program, *words], cwd=folder, stdin=subprocess.DEVNULL, stdout=subprocess.PIPE, stderr=subprocess.PIPE, preexec_fn=limit, timeout=SECONDS, check=False)
    except subprocess.TimeoutExpired:
        return None, b""
    return ran.returncode, ran.stdout


def held(folder):
    found = {}
    for name in os.listdir(folder):
        with open(os.path.join(folder, name), "rb") as file:
            found[name] = file.read()
    return found


def faults(files, after, words, status, output):
    """What is wrong with an end."""
    if status is None:
        return ["it didn't end in time"]
    if not 0 <= status <= 8:
        return [f"it ended with {status}"]
    wrong = []
    form = FORMS.get(status)
    if form is not None and not re.fullmatch(form, output):
        wrong.append(f"status {status} put {output[:200]!r}")
    if set(after) != set(files):
        wrong.append(f"the folder has {sorted(after)}")
    may_change = words[:1] == ["apply"] and status in (0, 6, 7)
    for name, text in files.items():
        now = after.get(name)
        if now == text or now is None:
            continue
        if not may_change:
            wrong.append(f"{name} changed at status {status}")
        elif now.count(b"\n") != text.count(b"\n"):
            wrong.append(f"{name} has other lines")
        elif status == 0 and b"rewritten" not in output:
            wrong.append(f"{name} changed, and nothing was rewritten")
    return wrong


def try_input(program, name, files, words, memory):
    """What is wrong with the end of one input."""
    with tempfile.TemporaryDirectory() as folder:
        for file, text in files.items():
            with open(os.path.join(folder, file), "wb") as held_file:
                held_file.write(text)
        status, output = run(program, folder, words, memory)
        wrong = faults(files, held(folder), words, status, output)
    return [f"input {name}, {words}: {fault}" for fault in wrong], status


def main(words):
    parser = argparse.ArgumentParser(description="Feeds a built program hostile inputs.")
    parser.add_argument("program")
    parser.add_argument("--inputs", type=int, default=10_000)
    parser.add_argument("--seed", type=int, default=0)
    parser.add_argument("--jobs", type=int, default=os.cpu_count())
    parser.add_argument("--memory", type=int, help="the most memory of a run, in MiB")
    parser.add_argument("--deep", action="store_true")
    given = parser.parse_args(words)
    program = shutil.which(given.program) or os.path.abspath(given.program)
    texts = corpus()
    random_inputs = ((number, *input_of(number, texts)) for number in range(given.seed, given.seed + given.inputs))
    inputs = iter(deep_inputs()) if given.deep else random_inputs
    counts, found = {}, 0
    with concurrent.futures.ThreadPoolExecutor(given.jobs) as pool:
        while batch := list(itertools.islice(inputs, BATCH)):
            for wrong, status in pool.map(lambda one: try_input(program, *one, given.memory), batch):
                counts[status] = counts.get(status, 0) + 1
                found += len(wrong)
                for line in wrong:
                    print(line, flush=True)
    print(f"{sum(counts.values())} inputs, statuses {dict(sorted(counts.items(), key=str))}, {found} faults")
    return 1 if found else 0


if __name__ == "__main__":
    sys.exit(main(sys.argv[1:]))
