#!/bin/sh
# Measures `demacro plan` on units with many runs of macros, each shape at two sizes. Proves and builds the tool first.
. "$(dirname "$0")/common.sh"
prove demacro run -- expand data/ring.c data/ring.c
for shape in arguments commas nested occurrences parameters places empty sums definitions stored unused; do
    python3 "$here/many_runs.py" "$shape" "$top/crates/demacro/out/demacro" "$work" || exit
done
