#!/bin/sh
# Times `demacro expand` against `gcc -E`, and against `tcc -E` where there is one, on generated units. A line for each
# unit says the ratios of the best of five times, and the peak memory, also in bytes a token of the list. Proves and builds the
# tool first.
. "$(dirname "$0")/common.sh"
prove demacro run -- expand data/ring.c data/ring.c
for shape in nested chain arguments pastes doubling deep wide headers inclusions objects skipped; do
    mkdir "$work/$shape" && python3 "$here/units.py" "$shape" "$work/$shape" || exit
    python3 "$here/compare_units.py" "$shape" "$top/crates/demacro/out/demacro" "$work/$shape" || exit
done
