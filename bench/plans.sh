#!/bin/sh
# Measures `demacro plan`: a line for each project says how long a plan takes, and how long the readings take that it counts. Proves and
# builds the tool first.
. "$(dirname "$0")/common.sh"
prove demacro run -- expand data/ring.c data/ring.c
for shape in constants functions generated kept shared; do
    python3 "$here/plans.py" "$shape" "$top/crates/demacro/out/demacro" "$work" || exit
done
