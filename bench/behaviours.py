#!/usr/bin/env python3
"""Applies random small programs, and runs each before and behind it under many orders of evaluation: what the rewritten one does has to be
among what the original does, unless that has an undefined run.

usage: behaviours.py PROGRAM [COUNT [FIRST]], where PROGRAM is a built `demacro`. A program in which nothing is rewritten isn't counted.
"""
import itertools
import os
import random
import subprocess
import sys
import tempfile

MARK = "@"
MOST_EFFECTS = 2
NEW_ORDERS = 24
OLD_ORDERS = (24, 200, 2000, 10000)

FUNCTIONS = """#include <stdio.h>
int g = 3, h = 5;
int say(int c) { putchar(c); return c - 'a'; }
int bump(void) { g = g + 1; return g; }
int twice(int n) { return n * 2; }
"""


class Maker:
    """Makes one program. A macro evaluates each argument once, and then its arguments have effects, or as often as it likes."""

    def __init__(self, seed):
        self.random = random.Random(seed)
        self.macros = []

    def with_effects(self, text):
        """Calls with effects in place of some of the marks. There are few, since orders show few of the ways in which many are evaluated."""
        pieces = text.split(MARK)
        chosen = set(self.random.sample(range(1, len(pieces)), min(MOST_EFFECTS, len(pieces) - 1)))
        calls = (self.random.choice([f"say('{chr(ord('a') + number)}')", f"say('{chr(ord('a') + number)}')", "bump()"]) if number in chosen else "h" for number in range(1, len(pieces)))
        return "".join(itertools.chain([pieces[0]], *zip(calls, pieces[1:])))

    def strict(self, names):
        """An expression that evaluates each of some names once, in any case."""
        if not names:
            return self.random.choice(["1", "7", "(h * 2)"])
        if len(names) == 1:
            name = f"({names[0]})"
            return self.random.choice([name, f"({name} + {self.strict([])})", f"twice({name})", f"-{name}", f"({name} ? 3 : {self.strict([])})", f"!{name}"])
        cut = self.random.randrange(1, len(names))
        sign = self.random.choice(["+", "-", "*", "<", "==", "|"])
        return f"({self.strict(names[:cut])} {sign} {self.strict(names[cut:])})"

    def free(self, names, depth):
        """An expression of some names."""
        if depth == 0 or self.random.random() < 0.2:
            return f"({self.random.choice([*names, *names, '1', '7'])})"
        one, other = self.free(names, depth - 1), self.free(names, depth - 1)
        signs = ["+", "*", "-", "<", "&", "&&", "||", ","]
        return self.random.choice([*(f"({one} {sign} {other})" for sign in signs), f"({one} ? {other} : {self.free(names, 0)})", f"twice({one})", f"(g + {one})"])

    def define(self):
        name = f"M{len(self.macros)}"
        if self.random.random() < 0.15:
            self.macros.append((name, None, False))
            return f"#define {name} {self.random.choice(['4', '(1 + 2)', '10u', '7L'])}\n"
        parameters = ["x", "y", "z"][: self.random.choice([1, 1, 2, 2, 3])]
        is_strict = self.random.random() < 0.6
        self.macros.append((name, len(parameters), is_strict))
        shuffled = self.random.sample(parameters, len(parameters))
        body = self.strict(shuffled) if is_strict else self.free(parameters, self.random.randint(1, 3))
        return f"#define {name}({', '.join(parameters)}) ({body})\n"

    def plain(self, names):
        """An argument without effects."""
        name = self.random.choice(names)
        return self.random.choice([name, name, "4", f"{name} & 3", f"{name} + g" if self.random.random() < 0.2 else name])

    def argument(self, names, depth):
        """An argument with effects here and there."""
        if depth == 0 or self.random.random() < 0.3:
            return self.random.choice([*names, "1", MARK, MARK, "t[1]"])
        inner = self.argument(names, depth - 1)
        return self.random.choice([f"{inner} + {self.argument(names, depth - 1)}", f"twice({inner})", self.use(names, depth - 1), self.use(names, depth - 1)])

    def use(self, names, depth):
        name, count, is_strict = self.random.choice(self.macros)
        if count is None:
            return f"(int){name}"
        return f"{name}({', '.join(self.argument(names, depth) if is_strict else self.plain(names) for _ in range(count))})"

    def program(self):
        text = FUNCTIONS + "".join(self.define() for _ in range(self.random.randint(1, 3)))
        names = ["a", "b"]
        value = f"({self.use(names, 1)} + {self.use(names, 1)}) & 63"
        more = f"b = {self.argument(names, 1)};"
        return text + self.with_effects(f"int main(void) {{\n    int a = 2, b = 9, t[3] = {{4, 5, 6}};\n    {more}\n    return {value};\n}}\n")


def outcomes(program, text, orders):
    """What a program puts under each of these orders."""
    with open("a.c", "w", encoding="utf-8") as file:
        file.write(text)
    found = set()
    for order in orders:
        ran = subprocess.run([program, "run", "a.c", "a.c", "--order", str(order), "--steps", "20000"], stdout=subprocess.PIPE, check=False)
        found.add((ran.returncode, ran.stdout))
    return found


def is_undefined(outcome):
    return outcome[1].splitlines()[-1:] != [] and outcome[1].splitlines()[-1].startswith(b"[undefined")


def surplus(program, before, after):
    """What the program behind does that the one before doesn't do, as far as orders show it; None where that has an undefined run."""
    new, known, first = outcomes(program, after, range(NEW_ORDERS)), set(), 0
    for last in OLD_ORDERS:
        known |= outcomes(program, before, range(first, last))
        first = last
        if any(map(is_undefined, known)):
            return None
        if new <= known:
            break
    return new - known


def applied(program, text):
    """The text behind `apply`, or None where it isn't read."""
    with open("a.c", "w", encoding="utf-8") as file:
        file.write(text)
    ran = subprocess.run([program, "apply", "a.c"], stdout=subprocess.PIPE, check=False)
    with open("a.c", encoding="utf-8") as file:
        return file.read() if ran.returncode == 0 else None


def main(words):
    if not 1 <= len(words) <= 3:
        print(__doc__)
        return 2
    program = os.path.realpath(words[0])
    count, seed = int(words[1]) if len(words) > 1 else 300, int(words[2]) if len(words) > 2 else 1
    tried = rewritten = undefined = several = differences = 0
    with tempfile.TemporaryDirectory() as room:
        os.chdir(room)
        while rewritten < count:
            text = Maker(seed).program()
            after = applied(program, text)
            tried += after is not None
            if after is not None and after != text:
                rewritten += 1
                several += len(outcomes(program, after, range(8))) > 1
                found = surplus(program, text, after)
                undefined += found is None
                if found:
                    differences += 1
                    print(f"seed {seed}: {sorted(found)}", flush=True)
            seed += 1
        os.chdir("/")
    print(f"{tried} programs, {rewritten} rewritten; of these {undefined} with an undefined run, {several} with several behaviours, {differences} that do something else")
    return int(differences > 0)


if __name__ == "__main__":
    sys.exit(main(sys.argv[1:]))
