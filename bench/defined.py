#!/usr/bin/env python3
"""Writes a random C program whose behaviour the standard defines whole, whatever order of evaluation a compiler takes.

usage: defined.py SEED, which prints it. It writes decimal numbers, one a line, and ends with a status.

Signed operands are kept small before they are added or multiplied, divisors are not 0, shifts are narrow, indices are masked, and no
expression has two effects or an effect beside a read of the same object. Functions in expressions read what they are given.
"""
import random
import sys

FRAME = """int putchar(int c);
struct pair { int first; unsigned int second; signed char third[3]; };
int counter;
unsigned int state = %(state)uu;
int numbers[8] = { %(numbers)s };
const short fixed[4] = { %(fixed)s };
static struct pair pairs[2] = { { 1, 2u, { 3, 4, 5 } }, { 6 } };
char text[] = "%(text)s";
int *place = &numbers[%(place)d];
void digits(unsigned long n) { if (n >= 10u) digits(n / 10u); putchar('0' + (int)(n %% 10u)); }
void show(long n) { if (n < 0) { putchar('-'); digits(0u - (unsigned long)n); } else digits((unsigned long)n); putchar('\\n'); }
unsigned int mixed(unsigned int a, unsigned int b) { return (a ^ b << 3) * 2654435761u + (b >> 5); }
int small(int a) { return a %% 1000; }
int least(int a, int b) { return a < b ? a : b; }
"""


class Writer:
    def __init__(self, seed):
        self.random = random.Random(seed)
        self.names = 0

    def one(self, *choices):
        return self.random.choice(choices)

    def below(self, count):
        return self.random.randrange(count)

    def fresh(self, stem):
        """A name that nothing else has."""
        self.names += 1
        return f"{stem}{self.names}"

    def leaf(self):
        """An int expression without effects."""
        return self.one(
            str(self.below(2000) - 1000) if self.below(2) else f"({-self.below(100)})",
            "a", "b", "counter", f"numbers[{self.below(8)}]", f"numbers[b & 7]", f"fixed[{self.below(4)}]",
            f"pairs[{self.below(2)}].first", "(int)(state & 1023u)", f"text[{self.below(5)}]", "*place", "(signed char)a",
            f"pairs[a & 1].third[{self.below(3)}]", "(int)sizeof(struct pair)", "(place - numbers)", "(unsigned char)b", "(_Bool)a",
        )

    def value(self, depth):
        """An int or long expression of a small value, without effects."""
        if depth == 0:
            return f"small({self.leaf()})"
        left, right = self.value(depth - 1), self.value(self.below(depth))
        return self.one(
            lambda: f"({left} {self.one('+', '-', '*')} {right}) % 1000",
            lambda: f"({left} {self.one('/', '%')} (({right} & 7) + 1))",
            lambda: f"({left} {self.one('<', '>', '<=', '>=', '==', '!=', '&&', '||')} {right})",
            lambda: f"({left} {self.one('&', '|', '^')} {right}) % 1000",
            lambda: f"({left} ? {right} : {self.value(depth - 1)})",
            lambda: f"{self.one('-', '~', '!')}({left})",
            lambda: f"(({left} & 255) {self.one('<<', '>>')} ({right} & 3))",
            lambda: f"least((int)({left}), (int)({right}))",
            lambda: f"(int)(mixed((unsigned int)({left}), (unsigned int)({right})) & 511u)",
            lambda: f"({self.one('short', 'unsigned short', 'signed char', 'long', 'unsigned char')})({left})",
            lambda: f"(({left}), {right})",
        )()

    def place_to_store(self):
        return self.one("a", "b", "counter", f"numbers[{self.below(8)}]", f"pairs[{self.below(2)}].first", "*place")

    def statement(self, depth):
        forms = [self.assignment, self.count, self.compound, self.shown, self.step, self.moved, self.copied]
        if depth > 0:
            forms += [self.choice, self.repeated, self.selected, self.block, self.until]
        return self.one(*forms)(depth)

    def assignment(self, depth):
        return f"{self.place_to_store()} = (int)({self.value(2)});"

    def count(self, depth):
        if self.below(2):
            return f"{{ int kept = small(counter); counter = kept{self.one('++', '--')}; a = small(kept); }}"
        return self.one("counter = small(counter); counter++;", "counter = small(counter); --counter;")

    def compound(self, depth):
        op = self.one("+=", "-=", "*=", "^=", "|=", "&=", "<<=", ">>=", "%=", "/=")
        right = "3u" if op in ("<<=", ">>=") else f"(unsigned int)({self.value(1)})"
        return f"state {op} {right if op not in ('%=', '/=') else f'({right} & 15u) + 1u'};"

    def shown(self, depth):
        return f"show({self.value(2)});"

    def step(self, depth):
        return "state = mixed(state, (unsigned int)a);"

    def moved(self, depth):
        return self.one(
            f"place = numbers + {self.below(8)};", f"place = &numbers[b & 7];", "if (place < numbers + 7) place++;", "if (place != numbers) --place;"
        )

    def copied(self, depth):
        return self.one(
            "pairs[0] = pairs[1];", "{ struct pair other = { 0 }; other = pairs[0]; other.first = small(a); pairs[1] = other; }",
            f"{{ struct pair *one = &pairs[{self.below(2)}]; one->third[{self.below(3)}] = (signed char)(a & 63); show(one->second & 255u); }}",
            f"{{ const char *s = \"{self.one('x', 'yz', 'abc')}\"; while (*s) show(*s++); }}",
        )

    def choice(self, depth):
        other = f" else {{ {self.statements(depth - 1)} }}" if self.below(2) else ""
        return f"if ({self.value(1)}) {{ {self.statements(depth - 1)} }}{other}"

    def repeated(self, depth):
        name = self.fresh("i")
        leave = self.one("", f"if ({name} == {self.below(4)}) continue;", f"if ({self.value(1)}) break;")
        return f"for (int {name} = 0; {name} < {1 + self.below(4)}; {name}++) {{ {leave} {self.statements(depth - 1)} }}"

    def until(self, depth):
        name = self.fresh("n")
        return f"{{ int {name} = {1 + self.below(3)}; do {{ {self.statements(depth - 1)} }} while (--{name} > 0); }}"

    def selected(self, depth):
        items = "".join(
            f" case {number}: {self.statement(depth - 1)} {self.one('break;', '', 'break;')}" for number in self.random.sample(range(-2, 6), 3)
        )
        return f"switch ({self.value(1)} & 7) {{{items} default: {self.statement(0)} }}"

    def block(self, depth):
        name = self.fresh("list")
        return f"{{ int {name}[3] = {{ (int)({self.value(1)}), {self.below(9)} }}; show({name}[a & 1] + {name}[2]); {self.statements(depth - 1)} }}"

    def statements(self, depth):
        return " ".join(self.statement(depth) for _ in range(1 + self.below(2)))

    def program(self):
        numbers = ", ".join(str(self.below(100)) for _ in range(8))
        fixed = ", ".join(str(self.below(100) - 50) for _ in range(4))
        text = "".join(self.one(*"abcxyz") for _ in range(6))
        yield FRAME % {"state": self.below(10**6), "numbers": numbers, "fixed": fixed, "text": text, "place": self.below(8)}
        names = []
        for number in range(1 + self.below(3)):
            calls = [f"{name}(small(a), {self.below(50)});" for name in names if self.below(2)]
            body = " ".join([self.statement(2) for _ in range(3)] + calls)
            yield f"int work{number}(int a, int b) {{ {body} return small(a) + small(b); }}"
            names.append(f"work{number}")
        body = " ".join(self.statement(2) for _ in range(3))
        shows = " ".join(f"show({name}(small(a), {self.below(50)}));" for name in names)
        rest = "show(counter % 1000); show((long)state); show(a); show(b);"
        yield f"int main(void) {{ int a = {self.below(100)}; int b = {self.below(100)}; {body} {shows} {rest} return {self.value(1)} & 255; }}"


def main():
    print("\n".join(Writer(int(sys.argv[1])).program()))


if __name__ == "__main__":
    main()
