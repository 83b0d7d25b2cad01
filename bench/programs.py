#!/usr/bin/env python3
"""Writes a C program whose run on the abstract machine is measured.

usage: programs.py SHAPE LENGTH, which prints it. LENGTH is `1`, or `10` for the same work in a program of ten times the text.
"""
import sys

SIEVE = """
char composite[100001];
int main(void) {
    int n;
    int k;
    for (n = 2; n <= 100000; n++) {
        if (!composite[n] && n <= 316)
            for (k = n * n; k <= 100000; k += n) composite[k] = 1;
    }
    return 0;
}
"""

CALLS = """
int fib(int n) { return n < 2 ? n : fib(n - 1) + fib(n - 2); }
int main(void) { return fib(24) % 256; }
"""

SORT = """
int items[2000];
int main(void) {
    unsigned int seed = 1;
    int i;
    int k;
    for (i = 0; i < 2000; i++) {
        seed = seed * 1103515245u + 12345u;
        items[i] = (int)(seed >> 16 & 32767u);
    }
    for (i = 1; i < 2000; i++) {
        int item = items[i];
        for (k = i; k > 0 && items[k - 1] > item; k--) items[k] = items[k - 1];
        items[k] = item;
    }
    return 0;
}
"""

STRINGS = """
char text[1001];
int length(const char *s) { int n = 0; while (s[n]) n++; return n; }
void reverse(char *s) {
    char *left = s;
    char *right = s + length(s);
    while (left < right) { char c = *left; *left++ = *--right; *right = c; }
}
int main(void) {
    int i;
    for (i = 0; i < 1000; i++) text[i] = (char)('a' + i % 26);
    for (i = 0; i < 1000; i++) reverse(text);
    return 0;
}
"""

PROGRAMS = {"sieve": SIEVE, "calls": CALLS, "sort": SORT, "strings": STRINGS}


def unused(count):
    """Functions and objects that the run doesn't come to."""
    for number in range(count):
        yield f"int spare{number} = {number};"
        yield f"int unused{number}(int a) {{ int b = a + spare{number}; if (b > {number}) b = -b; return b * b; }}"


def main():
    shape, length = sys.argv[1:]
    text = PROGRAMS[shape]
    extra = len(text) * (int(length) - 1) // len("".join(unused(1)))
    print("\n".join(unused(extra)) + text)


if __name__ == "__main__":
    main()
