#!/usr/bin/env python3
"""Measures the reading of a unit, from its bytes to its typed trees, against `gcc -fsyntax-only` and `tcc -c`.

usage: reading.py SHAPE PROGRAM FOLDER

SHAPE is `plain` (functions with loops, choices, calls, members and arrays, and a few macros), `bodies` (the same in few long
functions), `declared` (what headers declare: structs, enumerations, objects and functions) or `generated` (many macros, as `gen` has
them, each used in a function of its own). The units look like real code: they are taken from a fixed seed, and come to about 100,000
and 300,000 tokens, in headers that the main file includes.

A reading is a run of no steps. Each time is the least of five, as the user and by the clock. The bytes are those of the peak of memory,
beyond that of a unit of one declaration.
"""
import os
import random
import re
import shutil
import subprocess
import sys

from compare import used

TOKEN = re.compile(r"[A-Za-z_]\w*|\d\w*|'[^']*'|\"[^\"]*\"|->|\+\+|--|<<|>>|[<>=!]=|&&|\|\||[-+*/&|^]=|\S")
FILE_TOKENS = 40_000
SIZES = [100_000, 300_000]
MAIN = "int main(void)\n{\n    return 0;\n}\n"

PLAIN_HEAD = """#define LIMIT 100
#define WIDTH 8
#define IS_ODD(n) (((n) & 1) != 0)
#define CLAMP(x) ((x) > LIMIT ? LIMIT : (x))

struct point {
    int x, y;
};

struct node {
    struct node *next;
    struct point at;
    int values[WIDTH];
    unsigned int flags;
    const char *name;
};

enum state { IDLE, BUSY = 4, DONE };

typedef struct node node_t;
typedef unsigned long count_t;

static struct node *head;
static int table[LIMIT];
"""


class Plain:
    """Functions of a program, each of which may call those before it."""

    def __init__(self):
        self.number = 0
        self.chance = random.Random(7)

    def head(self):
        return PLAIN_HEAD

    def operand(self, depth):
        chance = self.chance
        kind = chance.randrange(11 if self.number and depth else 9)
        simple = ["a", "b", "total", "i", "it->at.x", f"it->values[i % WIDTH]", f"table[{chance.randrange(100)}]", str(chance.randrange(1000)), "it->at.y"]
        if kind < 9:
            return simple[kind]
        called = chance.randrange(max(0, self.number - 50), self.number)
        if kind == 9:
            return f"work_{called}(it, {self.expression(depth - 1)}, {self.operand(0)})"
        return f"({self.expression(depth - 1)})"

    def expression(self, depth):
        chance = self.chance
        operators = ["+", "-", "*", "&", "|", "^", "<<", "<", "==", "&&", "+", "-", "+"]
        text = self.operand(depth)
        for _ in range(chance.randrange(3)):
            operator = chance.choice(operators)
            text = f"(({text}) << {chance.randrange(1, 9)})" if operator == "<<" else f"{text} {operator} {self.operand(depth)}"
        return text

    def statement(self, depth, margin):
        chance = self.chance
        kind = chance.randrange(15 if depth else 9)
        value = self.expression(2)
        if kind < 3:
            return [f"{margin}{chance.choice(['total', 'a', 'b', 'it->at.x', 'table[i % LIMIT]', 'it->values[0]'])} {chance.choice(['=', '+=', '-=', '^=', '='])} {value};"]
        if kind == 3:
            return [f"{margin}total = CLAMP({self.operand(0)});"]
        if kind == 4:
            return [f"{margin}it->flags |= {chance.randrange(64)}u;"]
        if kind == 5 and self.number:
            return [f"{margin}work_{chance.randrange(self.number)}(it, {value}, i++);"]
        if kind == 6:
            return [f"{margin}it = it->next;"]
        if kind == 7:
            return [f"{margin}it->name = \"name {chance.randrange(100)}\";"]
        if kind == 8:
            return [f"{margin}a = (int)(it->flags >> {chance.randrange(1, 8)}) + {self.operand(1)};"]
        if kind in (9, 10, 11):
            lines = [f"{margin}if ({value}) {{", *self.block(depth - 1, margin), f"{margin}}}"]
            if kind == 11:
                lines = lines[:-1] + [f"{margin}}} else {{", *self.block(depth - 1, margin), f"{margin}}}"]
            return lines
        if kind == 12:
            return [f"{margin}for (i = 0; i < WIDTH; i++) {{", *self.block(depth - 1, margin), f"{margin}}}"]
        if kind == 13:
            return [f"{margin}while (it && IS_ODD(a)) {{", *self.block(depth - 1, margin), f"{margin}    it = it->next;", f"{margin}}}"]
        inner = margin + "        "
        cases = [line for case in range(3) for line in [f"{margin}    case {case}:", *self.statement(0, inner), f"{inner}break;"]]
        return [f"{margin}switch (a & 3) {{", *cases, f"{margin}    default:", f"{inner}break;", f"{margin}}}"]

    def block(self, depth, margin):
        inner = margin + "    "
        lines = [line for _ in range(self.chance.randrange(1, 4)) for line in self.statement(depth, inner)]
        if self.chance.randrange(4) == 0:
            lines.insert(0, f"{inner}int inner = {self.operand(0)};")
            lines.append(f"{inner}total += inner;")
        return lines

    def item(self):
        body = [line for _ in range(self.chance.randrange(4, 10)) for line in self.statement(2, "    ")]
        lines = [f"static int work_{self.number}(struct node *it, int a, int b)", "{", "    int i = 0;", "    int total = a;", *body, "    return total + b;", "}", ""]
        self.number += 1
        return "\n".join(lines) + "\n"


class Bodies(Plain):
    """Long functions."""

    def item(self):
        body = [line for _ in range(1000) for line in self.statement(2, "    ")]
        lines = [f"static int work_{self.number}(struct node *it, int a, int b)", "{", "    int i = 0;", "    int total = a;", *body, "    return total + b;", "}", ""]
        self.number += 1
        return "\n".join(lines) + "\n"


class Declared:
    """What headers have."""

    def __init__(self):
        self.number = 0

    def head(self):
        return "typedef unsigned int word_t;\n"

    def item(self):
        n = self.number
        self.number += 1
        return f"""/* The parts of module {n}. */
#define SIZE_{n} {n + 1}
struct part_{n} {{
    struct part_{n} *next;
    const char *name;
    int values[SIZE_{n}];
    word_t flags;
    long count, limit;
}};
enum kind_{n} {{ KIND_{n}_NONE, KIND_{n}_SOME = {n}, KIND_{n}_ALL }};
typedef struct part_{n} part_{n}_t;
extern int limit_{n};
static const unsigned long mask_{n} = {n}ul << 4;
extern const char *names_{n}[4];
int part_{n}_open(struct part_{n} *part, const char *name, word_t flags);
part_{n}_t *part_{n}_find(part_{n}_t *first, const char *name);
void part_{n}_close(part_{n}_t *part);
static inline int part_{n}_is_open(const part_{n}_t *part) {{ return part->count < part->limit; }}
"""


class Generated:
    """The unit of `gen`."""

    def __init__(self):
        self.number = 0

    def head(self):
        return "static int next(void) { return 1; }\n"

    def item(self):
        n = self.number
        self.number += 1
        m = n % 4000
        define, use = [(f"C{m} {m}", f"a + C{m}"), (f"F{m}(x) ((x)+{m})", f"F{m}(a)"), (f"S{m}(x) ((x)*(x))", f"a + S{m}(next())"), (f"U{m} {m}u", f"a + (int)U{m}")][m % 4]
        definition = f"#define {define}\n" if n < 4000 else ""
        return f"{definition}static int h{n}(int a) {{ return {use}; }}\n"


SHAPES = {"plain": Plain, "declared": Declared, "generated": Generated, "bodies": Bodies}


def count_tokens(text):
    """How many tokens there are outside directives, near enough."""
    return sum(len(TOKEN.findall(line)) for line in text.split("\n") if not line.startswith("#"))


def unit(shape, tokens):
    """The files of a unit of about so many tokens: headers, and `main.c` that includes them."""
    maker = SHAPES[shape]()
    texts, filled, whole = [maker.head()], 0, 0
    while whole < tokens:
        if filled >= FILE_TOKENS:
            texts.append("")
            filled = 0
        item = maker.item()
        texts[-1] += item
        count = count_tokens(item)
        filled += count
        whole += count
    files = {f"part{number}.h": text for number, text in enumerate(texts[:-1])}
    files["main.c"] = "".join(f'#include "{name}"\n' for name in files) + texts[-1] + MAIN
    return files


def write(files):
    for name, text in files.items():
        with open(name, "w", encoding="ascii") as file:
            file.write(text)


def least(command):
    """The least time as the user, the least by the clock, and the least peak of memory of five runs."""
    runs = [used(command) for _ in range(5)]
    return min(run[0] for run in runs), min(run[2] for run in runs), min(run[3] for run in runs)


def compared(name, option, user, wall):
    """What another program takes, and how many times as long a reading takes."""
    command = [name, "-w", option, "main.c"]
    if not shutil.which(name):
        return f"no {name}"
    if subprocess.run(command, capture_output=True, check=False).returncode != 0:
        return f"{name} {option} fails"
    theirs, clock, _ = least(command)
    return f"{name} {option} {theirs * 1000:.0f} ms ({clock * 1000:.0f}), ratio {user / theirs:.2f} ({wall / clock:.2f})"


def reading(program, name):
    return [program, "run", name, name, "--steps", "0"]


def size_of(program, shape, tokens):
    """Writes the unit of a size into the folder, and puts a line about it. The time of a reading as the user, a token."""
    write({"one.c": MAIN, **unit(shape, tokens)})
    put = subprocess.run([program, "expand", "main.c", "main.c"], capture_output=True, check=True, text=True).stdout
    count = count_tokens(put)
    user, wall, peak = least(reading(program, "main.c"))
    _, _, floor = least(reading(program, "one.c"))
    others = [compared(name, option, user, wall) for name, option in [("gcc", "-fsyntax-only"), ("tcc", "-c")]]
    print(
        f"{shape}: {count} tokens, {user * 1000:.0f} ms ({wall * 1000:.0f} by the clock), {', '.join(others)}, "
        f"peak {(peak - floor) / 1048576:.1f} MiB, {(peak - floor) / count:.0f} bytes a token",
        flush=True,
    )
    return user / count


def main():
    shape, program, folder = sys.argv[1:]
    os.chdir(folder)
    small, large = [size_of(program, shape, tokens) for tokens in SIZES]
    print(f"{shape}: a token takes {large / small:.2f} times as long in the larger unit")


if __name__ == "__main__":
    main()
