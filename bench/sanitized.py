#!/usr/bin/env python3
"""Runs small programs as `demacro run` does and as gcc compiles them with -fsanitize=undefined,address, and says where they disagree: where
the cause or the place of undefined behaviour isn't the one that stands here, where gcc doesn't complain though it can see such a cause, and
where it complains or gives another end though the behaviour is defined.

usage: sanitized.py PROGRAM, where PROGRAM is a built `demacro`.
"""
import os
import subprocess
import sys
import tempfile

# The cause of each, with the bodies of `main` in which it comes at the place that `@` marks, under every order of evaluation.
UNDEFINED = {
    "overflow": [
        "int a = 2147483647; return @a + 1;",
        "int a = -2147483647; a = @a - 2; return a;",
        "int a = 65536; return @a * a;",
        "int a = -2147483647 - 1; return 5 + @-a;",
        "int a = -2147483647 - 1, b = -1; return @a / b;",
        "int a = -2147483647 - 1, b = -1; return @a % b;",
        "int a = 2147483647; @a += 1; return 0;",
        "int a = -2147483647 - 1; @a--; return 0;",
        "long a = 9223372036854775807; @++a; return 0;",
        "unsigned short a = 65535; return @a * a;",
    ],
    "division": [
        "int b = 0; return @1 / b;",
        "int b = 0; return @1 % b;",
        "int a = 4, b = 0; @a /= b; return a;",
        "unsigned char a = 7, b = 0; @a %= b; return a;",
        "long b = 0; return (int)(1 + @5 / b);",
        "_Bool b = 0; return 1 ? @5u / b : 0;",
    ],
    "shift": [
        "int n = 32; return @1 << n;",
        "int n = -1; return @1 >> n;",
        "int a = 2; return @a << 30;",
        "int a = -1; return @a << 1;",
        "unsigned int a = 1, n = 32; @a <<= n; return 0;",
        "unsigned char a = 255; return @a << 24;",
        "long a = 1, n = 64; @a >>= n; return 0;",
    ],
    "null": [
        "int *p = 0; return @*p;",
        "int *p = 0; return @p[0];",
        "int *p = 0; @*p = 1; return 0;",
        "struct S { int a, b; } *p = 0; return @p->b;",
        "const char *p = 0; return @puts(p);",
    ],
    "bounds": [
        "int a[3] = { 0 }, i = 3; return @a[i];",
        "int a[3] = { 0 }, i = -1; return @a[i];",
        "int a[3] = { 0 }; return @*(a + 3);",
        "int m[2][3] = { { 0 } }, i = 3; return @m[0][i];",
        "int x = 0; return @*(&x + 1);",
        "int a[3] = { 0 }, *p = a + 3; @*p = 1; return 0;",
        "char s[2] = \"ab\"; return @puts(s);",
        "const char *s = \"ab\"; return @s[3];",
    ],
    "life": [
        "int *p; { int a = 1; p = &a; } return @*p;",
        "int *p; { int a[3] = { 1 }; p = a; } return @p[1];",
        "int *p; { int a = 1; p = &a; } @*p = 1; return 0;",
        "int *p; do { int x = 0; p = &x; } while (@*p); return 0;",
        "struct S { int *p; } s; { int a = 1; s.p = &a; } return @*s.p;",
    ],
}

# The bodies of `main` whose behaviour is defined, whatever order of evaluation a compiler takes.
DEFINED = [
    "short s = 32767; signed char c = 127; unsigned char u = 0; s++; c += 1; u--; return (s == -32768) + 2 * (c == -128) + 4 * (u == 255);",
    "_Bool b = 0; b--; b += 7; return b;",
    "int a = 0; return a && 1 / a ? 1 : 2;",
    "return (-5 >> 1 == -3) + 2 * (0 << 31 == 0) + 4 * ((1u << 31) >> 31);",
    "int i = 0; i = (i++, i + 1); i = i++ ? i + 2 : 9; return i;",
    "int i = 0; i++ && i++; i++ || i++; return i;",
    "int x, y, z; x = y = z = 3; return x + y + z;",
    "int a[2]; return (a[0] = 1) + (a[1] = 2);",
    "int a[3] = { 0 }, *p = &a[3]; return p - a;",
    "int m[2][3] = { { 1, 2, 3 } }; return (&m[1])[-1][2] + (m[0] + 1 < m[1]);",
    "struct S { int a, b; } s, t; s.a = 1; t = s; return t.a;",
    "int *p = 0; for (int i = 0; i < 2; i++) { int x = i; p = &x; if (*p != i) return 9; } (void)p; return 3;",
    "int i = 1, *p = 0; return sizeof(i++) + sizeof *p + sizeof(1 / 0) + i;",
    "const int *p; int x = 1; void *v = &x; p = v; *(int *)p = 6; return x;",
    "int s = 0; for (int i = 0; i < 5; i++) { switch (i) { case 1: continue; case 3: break; default: s += 10; } s++; } return s;",
    "int a[3] = { 5, a[0] + 1 }; return a[0] + a[1] * 10 + a[2];",
    "char s[] = \"abc\"; s[0] = 'x'; return s[0] + sizeof s;",
    "switch (4294967295u) { case -1: switch ((char)-1) { case 255: return 1; case -1: return 5; } } return 6;",
]

ORDERS = ["0", "1", "2", "3", "7"]
SANITIZERS = ["-fsanitize=undefined,address", "-fsanitize=bounds-strict", "-fno-sanitize-recover=undefined", "-fsanitize-address-use-after-scope"]


def text_of(body):
    """The program with this body, and the place that is marked in it."""
    text = "int puts(const char *s);\nint main(void) { " + body + " }\n"
    before = text.split("@")[0]
    return text.replace("@", ""), f"{before.count(chr(10)) + 1}:{len(before) - before.rfind(chr(10))}"


def ends(program):
    """The outputs of the program of a.c under each order."""
    found = set()
    for order in ORDERS:
        done = subprocess.run([program, "run", "a.c", "a.c", "--order", order, "--steps", "10000"], capture_output=True, check=True)
        found.add(done.stdout.decode())
    return found


def compiled():
    """How the compiled program of a.c ends, and what the sanitizers say."""
    subprocess.run(["gcc", "-std=c11", "-pedantic-errors", "-w", "-O0", *SANITIZERS, "-o", "compiled", "a.c"], check=True)
    options = {**os.environ, "ASAN_OPTIONS": "detect_stack_use_after_return=1:detect_leaks=0"}
    done = subprocess.run(["./compiled"], capture_output=True, timeout=20, env=options)
    complains = b"runtime error" in done.stderr or b"AddressSanitizer" in done.stderr
    return f"{done.stdout.decode()}[exit {done.returncode}]\n", complains


def differences(program, body, cause):
    """What is wrong with a program, a line each."""
    text, place = text_of(body)
    with open("a.c", "w", encoding="ascii") as file:
        file.write(text)
    found = ends(program)
    end, complains = compiled()
    wanted = end if cause is None else f"[undefined {cause} a.c:{place}]\n"
    for other in sorted(found - {wanted}):
        yield f"{body}\n    {other.strip()}, and not {wanted.strip()}"
    if complains != (cause is not None):
        yield f"{body}\n    gcc's program {'complains' if complains else 'does not complain'}"


def main():
    if len(sys.argv) != 2:
        print(__doc__)
        sys.exit(2)
    program = os.path.realpath(sys.argv[1])
    programs = [(body, cause) for cause, bodies in UNDEFINED.items() for body in bodies] + [(body, None) for body in DEFINED]
    count = 0
    with tempfile.TemporaryDirectory() as folder:
        os.chdir(folder)
        for body, cause in programs:
            for difference in differences(program, body, cause):
                print(difference)
                count += 1
        os.chdir("/")
    print(f"{len(programs)} programs, {count} differences")
    sys.exit(count > 0)


if __name__ == "__main__":
    main()
