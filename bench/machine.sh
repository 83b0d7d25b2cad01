#!/bin/sh
# Measures runs on the abstract machine: a sieve up to 100,000, fib(24) by recursion, a sort of 2,000 ints, and strings. A line for
# each says how many steps a second are taken, also in a program of ten times the text, and the peak of memory. Proves and builds the
# tool first.
. "$(dirname "$0")/common.sh"
prove demacro run -- expand data/ring.c data/ring.c
for shape in sieve calls sort strings; do
    python3 "$here/machine.py" "$shape" "$top/crates/demacro/out/demacro" "$work" || exit
done
