#!/usr/bin/env python3
"""Runs the built program over real files, and compares its status, its output and what the folder holds afterwards.

No contract can see a disk, so these runs hold what the tool says of it: a file is read and written whole, what is no
file is a read fault, a write that fails leaves the old bytes, and nothing is left behind. They run as nobody where this
is started as root, since root reads and writes what others may not.

usage: runs.py PROGRAM [WORD]     only the runs whose names have the word
"""
import os
import resource
import shutil
import signal
import stat
import subprocess
import sys
import tempfile

USAGE = (
    b"usage: demacro plan M [--json] | apply M [--json] | expand M UNIT | "
    b"run M UNIT [--order N] [--steps N] [--input FILE] | gen N\n"
)
OPENING = b"int putchar(int c);\n"
OLD = OPENING + b"#define N 65\nint main(void) { putchar(N + 1); return 0; }\n"
NEW = OPENING + b"enum { N = 65 };\nint main(void) { putchar(N + 1); return 0; }\n"
REPORT = b"rewritten a.c:2 N enumerator\nrewritten 1 kept 0\n"
LIMIT = 1_048_576
SPARE = ".demacrofier.tmp"
NOBODY = 65534

# How a program ends that has too little memory even to be loaded.
NOT_STARTED = {127, -signal.SIGKILL, -signal.SIGSEGV}


def large():
    """A file with the most macros that has the greatest length once it is rewritten, the same rewritten, and the report."""
    main = b"int main(void) { putchar(N + 1); return 0; }\n"
    room = LIMIT - len(OPENING + b"enum { N = 65 };\n" + main)
    share = room // 255
    names = []
    for number in range(255):
        size = share if number < 254 else room - 254 * share
        names.append((b"L%d" % number).ljust(size - len(b"#define  1\n"), b"X"))
    others = b"".join(b"#define %s 1\n" % name for name in names)
    lines = [b"kept a.c:%d %s rule 4 Unused a.c:%d:9\n" % (line, name, line) for line, name in enumerate(names, 3)]
    report = b"rewritten a.c:2 N enumerator\n" + b"".join(lines) + b"rewritten 1 kept 255\n"
    return OPENING + b"#define N 65\n" + others + main, OPENING + b"enum { N = 65 };\n" + others + main, report


class Run:
    """A folder of its own, in which the program is run once or more."""

    def __init__(self, program, folder):
        self.program, self.folder, self.faults = program, folder, []

    def path(self, name):
        return os.path.join(self.folder, name)

    def put(self, name, text=OLD, mode=0o644):
        with open(self.path(name), "wb") as file:
            file.write(text)
        os.chmod(self.path(name), mode)

    def link(self, target, name):
        os.symlink(target, self.path(name))

    def start(self, words, to=subprocess.PIPE, size=None, memory=None):
        """Starts the program with limits on the size of files and on memory; a write over the limit fails."""

        def limit():
            signal.signal(signal.SIGXFSZ, signal.SIG_IGN)
            resource.setrlimit(resource.RLIMIT_CORE, (0, 0))
            if size is not None:
                resource.setrlimit(resource.RLIMIT_FSIZE, (size, size))
            if memory is not None:
                resource.setrlimit(resource.RLIMIT_AS, (memory, memory))
            if os.geteuid() == 0:
                os.setgroups([])
                os.setgid(NOBODY)
                os.setuid(NOBODY)

        return subprocess.run(
            [self.program, *words], cwd=self.folder, stdin=subprocess.DEVNULL, stdout=to, stderr=subprocess.PIPE,
            preexec_fn=limit, restore_signals=False, timeout=60, check=False, env={"LANG": "C.UTF-8"},
        )

    def give(self):
        """Makes the files nobody's where this is root, links among them."""
        if os.geteuid() == 0:
            for at, folders, files in os.walk(self.folder):
                for path in [at, *(os.path.join(at, name) for name in folders + files)]:
                    os.chown(path, NOBODY, NOBODY, follow_symlinks=False)

    def expect(self, words, status, output, **limits):
        """Runs the program, and notes where its status or its output is another."""
        self.give()
        ran = self.start(words, **limits)
        self.same(f"the status of {words}", ran.returncode, status)
        if ran.stdout is not None:
            self.same(f"the output of {words}", ran.stdout, output)
        self.same(f"standard error of {words}", ran.stderr, b"")

    def same(self, what, found, wanted):
        if found != wanted:
            show = [repr(it) if len(repr(it)) < 200 else f"{len(it)} bytes, {it[:80]!r}.." for it in (found, wanted)]
            self.faults.append(f"{what} is {show[0]} and not {show[1]}")

    def holds(self, name, text, mode=0o644):
        with open(self.path(name), "rb") as file:
            self.same(name, file.read(), text)
        self.same(f"the mode of {name}", oct(stat.S_IMODE(os.stat(self.path(name)).st_mode)), oct(mode))

    def has_only(self, *names):
        self.same("the folder", sorted(os.listdir(self.folder)), sorted(names))


def wrong_words(run):
    run.put("a.c")
    for words in [[], ["apply"], ["apply", "a.c", "a.c"], ["apply", "a.c", ""], ["plan"], ["plan", "a.c", "--json", "--json"], ["gen", "1001"], ["gen", "a"]]:
        run.expect(words, 1, USAGE)
    for words in [["run", "a.c"], ["run", "a.c", "a.c", "--order"], ["run", "a.c", "a.c", "--steps", "-1"], ["run", "a.c", "a.c", "--order", "18446744073709551616"]]:
        run.expect(words, 1, USAGE)
    for words in [["expand"], ["expand", "a.c"], ["expand", "", "a.c"], ["expand", "--", "a.c"], ["expand", "a.c", "--help"]]:
        run.expect(words, 1, USAGE)
    run.holds("a.c", OLD)


def words_that_are_not_utf8(run):
    run.put("a.c")
    for words in [[b"\xff"], ["apply", b"\xff.c"], ["apply", "a.c", b"\xc3"], [b"apply\x80", "a.c"], ["expand", "a.c", b"\xff"]]:
        run.expect(words, 1, USAGE)
    run.holds("a.c", OLD)


def a_file_is_rewritten(run):
    os.mkdir(run.path("d"))
    run.put("d/a.c")
    run.put("b.c")
    run.expect(["apply", "d/a.c"], 0, REPORT.replace(b"a.c", b"d/a.c"))
    run.holds("d/a.c", NEW)
    run.holds("b.c", OLD)
    run.same("the folder d", os.listdir(run.path("d")), ["a.c"])
    run.has_only("b.c", "d")


NOTHING = b"rewritten 0 kept 0\n"


def files_that_do_not_change(run):
    run.expect(["apply", "a.c"], 3, b"a.c:1:1: refusal 7 NotFound\n")
    run.put("a.c", NEW)
    run.expect(["apply", "a.c"], 0, NOTHING)
    run.holds("a.c", NEW)
    run.expect(["apply", "a.c/b.c"], 3, b"a.c/b.c:1:1: refusal 7 NotFound\n")
    run.put("a.c", OPENING + b"int main(void) { return 0 }\n")
    run.expect(["apply", "a.c"], 3, b"a.c:2:1: refusal 16 Syntax\n")
    run.put("a.c", b"\n" * LIMIT)
    run.expect(["apply", "a.c"], 0, NOTHING)
    run.put("a.c", b"\n" * (LIMIT + 1))
    run.expect(["apply", "a.c"], 4, b"limit L1 a.c\n")
    run.holds("a.c", b"\n" * (LIMIT + 1))
    run.has_only("a.c")


def a_file_of_a_mebibyte(run):
    old, new, report = large()
    run.same("the length of the large file", (len(new), len(report) > LIMIT), (LIMIT, True))
    run.put("a.c", old)
    run.expect(["apply", "a.c"], 0, report)
    run.holds("a.c", new)
    run.has_only("a.c")


def permissions_are_kept(run):
    for mode in [0o600, 0o640, 0o666, 0o755]:
        run.put("a.c", OLD, mode)
        run.expect(["apply", "a.c"], 0, REPORT)
        run.holds("a.c", NEW, mode)
    run.has_only("a.c")


def links_are_followed(run):
    run.put("b.c", OLD, 0o640)
    run.link("b.c", "a.c")
    run.expect(["apply", "a.c"], 0, REPORT)
    run.same("the link", os.path.islink(run.path("a.c")) and os.readlink(run.path("a.c")), "b.c")
    run.holds("b.c", NEW, 0o640)
    run.link("absent.c", "c.c")
    run.expect(["apply", "c.c"], 3, b"c.c:1:1: refusal 7 NotFound\n")
    run.has_only("a.c", "b.c", "c.c")


def what_is_no_file_is_a_read_fault(run):
    os.mkdir(run.path("folder.c"))
    os.mkfifo(run.path("pipe.c"))
    run.link("/dev/zero", "zero.c")
    run.link("/dev/null", "null.c")
    run.link("loop.c", "loop.c")
    run.put("closed.c", OLD, 0)
    os.mkdir(run.path("shut"))
    run.put("shut/a.c")
    os.chmod(run.path("shut"), 0)
    for name in ["folder.c", "pipe.c", "zero.c", "null.c", "loop.c", "closed.c", "shut/a.c"]:
        run.expect(["apply", name], 5, b"read fault %s\n" % name.encode())
    os.chmod(run.path("shut"), 0o755)
    run.holds("shut/a.c", OLD)
    run.holds("closed.c", OLD, 0)
    run.same("the target of zero.c", stat.S_ISCHR(os.stat("/dev/zero").st_mode), True)


def a_write_that_fails_leaves_the_old_bytes(run):
    old, _, _ = large()
    for text, sizes in [(OLD, [0, 1, len(NEW) - 1]), (old, [0, 4096, LIMIT - 1])]:
        run.put("a.c", text, 0o640)
        for size in sizes:
            run.expect(["apply", "a.c"], 6, b"write fault a.c\n", size=size)
            run.holds("a.c", text, 0o640)
            run.has_only("a.c")


def without_a_spare_file_the_file_itself_is_written(run):
    run.put(SPARE, b"other")
    run.put("a.c")
    run.expect(["apply", "a.c"], 0, REPORT)
    run.holds("a.c", NEW)
    run.holds(SPARE, b"other")
    os.mkdir(run.path("d"))
    run.put("d/a.c", OLD, 0o444)
    run.put("d/b.c", OLD, 0o644)
    os.chmod(run.path("d"), 0o555)
    run.expect(["apply", "d/a.c"], 6, b"write fault d/a.c\n")
    run.expect(["apply", "d/b.c"], 0, REPORT.replace(b"a.c", b"d/b.c"))
    os.chmod(run.path("d"), 0o755)
    run.holds("d/a.c", OLD, 0o444)
    run.holds("d/b.c", NEW)


def output_that_fails(run):
    with open("/dev/full", "wb") as full:
        run.put("a.c")
        run.expect(["apply", "a.c"], 7, None, to=full)
        run.holds("a.c", NEW)
        run.expect(["apply", "b.c"], 3, None, to=full)
        run.expect([], 1, None, to=full)
    run.put("a.c")
    ends = os.pipe()
    os.close(ends[0])
    run.expect(["apply", "a.c"], 7, None, to=ends[1])
    os.close(ends[1])
    run.holds("a.c", NEW)
    run.has_only("a.c")


def memories(least, most):
    """Numbers of bytes, each an eighth greater than the one before."""
    while least <= most:
        yield least
        least += least // 8


def want_of_memory_changes_nothing(run):
    old, new, report = large()
    run.put("a.c", old)
    run.give()
    statuses = set()
    for memory in memories(1 << 20, 4 << 30):
        ran = run.start(["apply", "a.c"], memory=memory)
        statuses.add(ran.returncode)
        if ran.returncode == 8:
            run.same(f"what is put with {memory} bytes of memory", ran.stdout + ran.stderr, b"")
            run.holds("a.c", old)
        if ran.returncode == 0:
            run.same("the output", ran.stdout, report)
            break
    run.same("the statuses", sorted(statuses - NOT_STARTED), [0, 8])
    run.holds("a.c", new)
    run.has_only("a.c")


def want_of_memory_for_the_words(run):
    words = ["apply", *["a" * 100_000] * 8]
    run.give()
    statuses = set()
    for memory in range(3 << 20, 40 << 20, 1 << 17):
        ran = run.start(words, memory=memory)
        statuses.add(ran.returncode)
        if ran.returncode == 8:
            run.same(f"what is put with {memory} bytes of memory", ran.stdout + ran.stderr, b"")
        if ran.returncode == 1:
            run.same("the output", ran.stdout, USAGE)
            break
    run.same("the statuses", sorted(statuses - NOT_STARTED), [1, 8])


def a_unit_is_expanded(run):
    os.mkdir(run.path("inc"))
    run.put("m.json", b'{"units": [{"file": "a.c", "include": ["inc"], "define": ["WIDE"]}, {"file": "b.c"}]}')
    run.put("inc/h.h", b"#ifndef H\n#define H\n#define TWICE(x) ((x) + (x))\n#endif\n")
    run.put("a.c", b'#include <h.h>\n#include "h.h"\n#if defined WIDE\nlong a = TWICE(2);\n#endif\n')
    run.put("b.c", b"#define EMPTY\nEMPTY\n")
    run.expect(["expand", "m.json", "a.c"], 0, b"long a = ( ( 2 ) + ( 2 ) ) ;\n")
    run.expect(["expand", "m.json", "b.c"], 0, b"")
    run.expect(["expand", "b.c", "b.c"], 0, b"")
    run.has_only("a.c", "b.c", "inc", "m.json")
    run.holds("inc/h.h", b"#ifndef H\n#define H\n#define TWICE(x) ((x) + (x))\n#endif\n")


def what_can_not_be_expanded_is_explained(run):
    run.expect(["expand", "m.json", "a.c"], 2, b"manifest M1 m.json\n")
    run.expect(["expand", "../a.c", "../a.c"], 2, b"manifest M4 ../a.c\n")
    run.expect(["expand", "a.c", "b.c"], 2, b"manifest M7 b.c\n")
    run.expect(["expand", "a.c", "a.c"], 3, b"a.c:1:1: refusal 7 NotFound\n")
    run.put("m.json", b'{"units": [{"file": "a.c"}], "more": 1}')
    run.expect(["expand", "m.json", "a.c"], 2, b"manifest M3 more\n")
    run.put("m.json", b" " * (LIMIT + 1))
    run.expect(["expand", "m.json", "a.c"], 4, b"limit L1 m.json\n")
    run.put("a.c", b'#include "h.h"\n')
    run.put("h.h", b"int a;\n#if 1\n")
    run.expect(["expand", "a.c", "a.c"], 3, b"h.h:2:1: refusal 6 Conditionals\n")
    run.put("h.h", b"\n" * (LIMIT + 1))
    run.expect(["expand", "a.c", "a.c"], 4, b"limit L1 h.h\n")
    os.remove(run.path("h.h"))
    os.mkdir(run.path("h.h"))
    run.expect(["expand", "a.c", "a.c"], 5, b"read fault h.h\n")
    os.remove(run.path("m.json"))
    os.mkfifo(run.path("m.json"))
    run.expect(["expand", "m.json", "a.c"], 5, b"read fault m.json\n")


def units_of_the_greatest_size(run):
    run.put("a.c", b";" * 1_000_000 + b"\n")
    run.expect(["expand", "a.c", "a.c"], 0, b"; " * 999_999 + b";\n")
    run.put("a.c", b";" * 1_000_001 + b"\n")
    run.expect(["expand", "a.c", "a.c"], 4, b"limit L2 a.c\n")
    run.put("a.c", b"#if 1\n" * (LIMIT // 6))
    run.expect(["expand", "a.c", "a.c"], 3, b"a.c:%d:1: refusal 6 Conditionals\n" % (LIMIT // 6))
    run.put("a.c", b"#if 1\n" * (LIMIT // 13 - 1) + b"a\n" + b"#endif\n" * (LIMIT // 13 - 1))
    run.expect(["expand", "a.c", "a.c"], 0, b"a\n")
    for number in range(1, 66):
        run.put(f"h{number}.h", b'#include "h%d.h"\n' % (number + 1) if number < 65 else b"b\n")
    run.put("a.c", b'#include "h2.h"\n')
    run.expect(["expand", "a.c", "a.c"], 0, b"b\n")
    run.put("a.c", b'#include "h1.h"\n')
    run.expect(["expand", "a.c", "a.c"], 4, b"limit L4 a.c\n")
    run.put("h.h", b"#pragma once\n")
    run.put("a.c", b'#include "h.h"\n' * 16_384 + b"c\n")
    run.expect(["expand", "a.c", "a.c"], 0, b"c\n")
    run.put("a.c", b'#include "h.h"\n' * 16_385)
    run.expect(["expand", "a.c", "a.c"], 4, b"limit L9 a.c\n")
    for number in range(4_096):
        run.put(f"f{number}.h", b"")
    run.put("a.c", b"".join(b'#include "f%d.h"\n' % number for number in range(4_095)))
    run.expect(["expand", "a.c", "a.c"], 0, b"")
    run.put("a.c", b"".join(b'#include "f%d.h"\n' % number for number in range(4_096)))
    run.expect(["expand", "a.c", "a.c"], 4, b"limit L6 f4095.h\n")


def a_listing_that_can_not_be_put(run):
    run.put("a.c", b"int a;\n")
    with open("/dev/full", "wb") as full:
        run.expect(["expand", "a.c", "a.c"], 7, None, to=full)
        run.expect(["expand", "a.c", "b.c"], 2, None, to=full)
        run.expect(["expand", "b.c", "b.c"], 3, None, to=full)
    ends = os.pipe()
    os.close(ends[0])
    run.expect(["expand", "a.c", "a.c"], 7, None, to=ends[1])
    os.close(ends[1])
    run.holds("a.c", b"int a;\n")
    run.has_only("a.c")


MAIN = b"int main(void) { %s }\n"
PUTS = b"#include <stdio.h>\n" + MAIN


def a_program_is_run(run):
    run.put("a.c", MAIN % b"return 0;")
    for words, end in [([], b"exit 0"), (["--steps", "20"], b"exit 0"), (["--steps", "4"], b"exit 0"), (["--steps", "3"], b"steps"), (["--steps=0"], b"steps")]:
        run.expect(["run", "a.c", "a.c", *words], 0, b"[%s]\n" % end)
    run.put("a.c", MAIN % b"for (;;) ;")
    run.expect(["run", "--steps", "10", "a.c", "a.c"], 0, b"[steps]\n")
    run.put("a.c", PUTS % b"putchar('a') + putchar('b'); return 0;")
    run.expect(["run", "a.c", "a.c"], 0, b"ab[exit 0]\n")
    run.expect(["run", "a.c", "--order", "1", "a.c"], 0, b"ba[exit 0]\n")
    run.expect(["run", "a.c", "--order=0001", "a.c"], 0, b"ba[exit 0]\n")
    run.put("a.c", b"int main(void) {\n    int i = 0;\n    i = i++;\n    return i;\n}\n")
    run.expect(["run", "a.c", "a.c"], 0, b"[undefined conflict a.c:3:5]\n")
    run.put("a.c", PUTS % b"int c; while ((c = getchar()) != -1) putchar(c + 1); return 300;")
    run.put("in.txt", b"HAL")
    run.expect(["run", "a.c", "a.c", "--input", "in.txt"], 0, b"IBM[exit 44]\n")
    run.expect(["run", "a.c", "a.c"], 0, b"[exit 44]\n")
    run.put("a.c", b"#include <stdio.h>\n#define SQ(x) ((x)*(x))\nint main(void) { putchar(SQ(6)+29); return 0; }\n")
    run.put("m.json", b'{"units": [{"file": "a.c"}]}')
    run.expect(["run", "m.json", "a.c"], 0, b"A[exit 0]\n")
    run.put("a.c", b"int f(int n) { return n ? f(n - 1) : 7; }\nint main(void) { return f(100000); }\n")
    run.expect(["run", "a.c", "a.c", "--steps", "10000000"], 0, b"[exit 7]\n")
    run.has_only("a.c", "in.txt", "m.json")


def what_can_not_be_run_is_explained(run):
    run.expect(["run", "a.c", "b.c"], 2, b"manifest M7 b.c\n")
    run.expect(["run", "a.c", "a.c"], 3, b"a.c:1:1: refusal 7 NotFound\n")
    run.put("a.c", b"int a;\n")
    run.expect(["run", "a.c", "a.c"], 3, b"a.c:1:1: refusal 19 NoMain\n")
    for name in ["in.txt", "../in.txt"]:
        run.expect(["run", "a.c", "a.c", "--input", name], 2, b"manifest M8 %s\n" % name.encode())
    run.put("in.txt", b" " * (LIMIT + 1))
    run.expect(["run", "a.c", "a.c", "--input", "in.txt"], 4, b"limit L1 in.txt\n")
    run.put("in.txt", b"", 0)
    run.expect(["run", "a.c", "a.c", "--input", "in.txt"], 5, b"read fault in.txt\n")
    run.put("a.c", b"int main(void) { return b; }\n")
    run.expect(["run", "a.c", "a.c"], 3, b"a.c:1:25: refusal 17 Type C1\n")
    run.put("a.c", b"int main(void) { return 0 }\n")
    run.expect(["run", "a.c", "a.c"], 3, b"a.c:1:1: refusal 16 Syntax\n")
    lines = b"".join(b"#define N%d 1\n" % number for number in range(4096))
    run.put("a.c", lines + MAIN % b"return 0;")
    run.expect(["run", "a.c", "a.c"], 0, b"[exit 0]\n")
    run.put("a.c", b"#define M 1\n" + lines + MAIN % b"return 0;")
    run.expect(["run", "a.c", "a.c"], 4, b"limit L8 a.c\n")


RING = os.path.join(os.path.dirname(os.path.dirname(os.path.abspath(__file__))), "examples")
RING_REPORT = b"""\
kept ring.h:2 RING_H rule 1 Body ring.h:2:9
rewritten ring.h:4 RING_SIZE enumerator
rewritten ring.h:5 RING_MASK enumerator
rewritten ring.h:6 RING_NEXT function
kept ring.h:7 RING_IS_EMPTY rule 12 Type main.c:15:13
kept ring.h:8 RING_BIT rule 10 Constant ring.h:9:44
rewritten ring.h:9 RING_OVERFLOWN constant
kept ring.h:10 MAX rule 14 Evaluation main.c:16:16
rewritten main.c:4 SHOW function
rewritten 5 kept 4
"""
RING_LINES = [
    (b"#define RING_SIZE 16\n", b"enum { RING_SIZE = 16 };\n"),
    (b"#define RING_MASK (RING_SIZE - 1)\n", b"enum { RING_MASK = (RING_SIZE - 1) };\n"),
    (b"#define RING_NEXT(i) (((i) + 1) & RING_MASK)\n", b"static inline int RING_NEXT(int i) { return (((i) + 1) & RING_MASK); }\n"),
    (b"#define RING_OVERFLOWN RING_BIT(0)\n", b"static const unsigned int RING_OVERFLOWN = RING_BIT(0);\n"),
    (b"#define SHOW(c) putchar(c)\n", b"static inline int SHOW(int c) { return putchar(c); }\n"),
]


def ring_files():
    """The example of a project, and the same rewritten."""
    old = {}
    for name in ["ring.json", "ring.h", "ring.c", "main.c"]:
        with open(os.path.join(RING, name), "rb") as file:
            old[name] = file.read()
    new = dict(old)
    for before, after in RING_LINES:
        new = {name: text.replace(before, after) for name, text in new.items()}
    return old, new


def a_project_is_planned_and_applied(run):
    old, new = ring_files()
    for name, text in old.items():
        run.put(name, text)
    run.expect(["plan", "ring.json"], 0, RING_REPORT)
    for name, text in old.items():
        run.holds(name, text)
    run.expect(["apply", "ring.json"], 0, RING_REPORT)
    for name, text in new.items():
        run.holds(name, text)
    run.expect(["run", "ring.json", "main.c"], 0, b"\x00\n[exit 0]\n")
    run.has_only(*old)


def reports_are_json(run):
    run.put("a.c", b"#define SQ(x) ((x)*(x))\nint main(void) { int i = 3; return SQ(i++); }\n")
    kept = b'{"definitions":[{"file":"a.c","line":1,"name":"SQ","outcome":"kept","place":{"column":36,"file":"a.c","line":2},"rule":14,"title":"Evaluation"}],"kept":1,"rewritten":0}\n'
    run.expect(["plan", "a.c", "--json"], 0, kept)
    run.expect(["apply", "--json", "a.c"], 0, kept)
    run.put("a.c")
    run.expect(["apply", "a.c", "--json"], 0, b'{"definitions":[{"as":"enumerator","file":"a.c","line":2,"name":"N","outcome":"rewritten"}],"kept":0,"rewritten":1}\n')
    run.holds("a.c", NEW)


def a_write_that_fails_between_others(run):
    run.put("m.json", b'{"units": [{"file": "c.c"}, {"file": "a.c"}, {"file": "b.c"}]}')
    old, new = b"#define N 1\nint n = N;\n", b"enum { N = 1 };\nint n = N;\n"
    comment = b"/* %s */\n" % (b"b" * 4096)
    for name, text in [("a.c", old), ("b.c", comment + old), ("c.c", old)]:
        run.put(name, text)
    run.expect(["apply", "m.json"], 6, b"write fault b.c\n", size=2048)
    for name, text in [("a.c", new), ("b.c", comment + old), ("c.c", old)]:
        run.holds(name, text)
    run.expect(["apply", "m.json"], 0, b"rewritten c.c:1 N enumerator\nrewritten b.c:2 N enumerator\nrewritten 2 kept 0\n")
    run.holds("b.c", comment + new)
    run.holds("c.c", new)
    run.has_only("a.c", "b.c", "c.c", "m.json")


def what_can_not_be_planned_is_explained(run):
    run.expect(["apply", "m.json"], 2, b"manifest M1 m.json\n")
    run.expect(["plan", "../a.c"], 2, b"manifest M4 ../a.c\n")
    run.put("m.json", b'{"units": [{"file": "a.c"}, {"file": "b.c"}]}')
    run.put("a.c", OLD)
    run.put("b.c", b"int a;\nlong a;\n")
    run.expect(["apply", "m.json"], 3, b"b.c:2:6: refusal 17 Type C2\n")
    run.holds("a.c", OLD)
    units = [b'{"file": "a.c", "define": ["D%d"]}' % number for number in range(257)]
    run.put("m.json", b'{"units": [%s]}' % b", ".join(units))
    run.expect(["plan", "m.json"], 4, b"limit L7 m.json\n")
    lines = b"".join(b"#define N%d 1\n" % number for number in range(4097))
    run.put("a.c", lines)
    run.expect(["plan", "a.c"], 4, b"limit L8 a.c\n")


def generated_projects_are_planned(run):
    run.expect(["gen", "0"], 0, b"definitions 0 rewritten 0 kept 0 bytes 90 90\n")
    for number in ["100", "00000000000000000100"]:
        run.expect(["gen", number], 0, b"definitions 100 rewritten 75 kept 25 bytes 8142 9417\n")
    run.has_only()


RUNS = [
    wrong_words,
    words_that_are_not_utf8,
    a_file_is_rewritten,
    files_that_do_not_change,
    a_file_of_a_mebibyte,
    permissions_are_kept,
    links_are_followed,
    what_is_no_file_is_a_read_fault,
    a_write_that_fails_leaves_the_old_bytes,
    without_a_spare_file_the_file_itself_is_written,
    output_that_fails,
    want_of_memory_changes_nothing,
    want_of_memory_for_the_words,
    a_unit_is_expanded,
    what_can_not_be_expanded_is_explained,
    units_of_the_greatest_size,
    a_listing_that_can_not_be_put,
    a_program_is_run,
    what_can_not_be_run_is_explained,
    a_project_is_planned_and_applied,
    reports_are_json,
    a_write_that_fails_between_others,
    what_can_not_be_planned_is_explained,
    generated_projects_are_planned,
]


def main():
    given, word = sys.argv[1], "".join(sys.argv[2:3])
    os.umask(0o022)
    failed = 0
    with tempfile.TemporaryDirectory(prefix="demacro-runs-") as room:
        os.chmod(room, 0o711)
        program = os.path.join(room, "demacro")
        shutil.copyfile(given, program)
        os.chmod(program, 0o755)
        for number, one in enumerate(it for it in RUNS if word in it.__name__):
            run = Run(program, os.path.join(room, str(number)))
            os.mkdir(run.folder)
            try:
                one(run)
            except (OSError, subprocess.SubprocessError) as error:
                run.faults.append(str(error))
            print(f"run {one.__name__} ... {'FAILED' if run.faults else 'ok'}")
            for fault in run.faults:
                print(f"    {fault}")
            failed += bool(run.faults)
    print(f"{os.path.basename(given)}: {failed} of the runs over real files failed" if failed else f"{os.path.basename(given)}: all runs over real files passed")
    return 1 if failed else 0


if __name__ == "__main__":
    sys.exit(main())
