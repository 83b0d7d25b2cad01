#!/bin/sh
# Times the reading of units, from their bytes to their typed trees, against `gcc -fsyntax-only`, and against `tcc -c` where there is one,
# on generated units that look like real code. For each shape and size a line has the best of five times, as the user and by the clock,
# and the peak of memory a token. Proves and builds the tool first.
. "$(dirname "$0")/common.sh"
prove demacro run -- expand data/ring.c data/ring.c
for shape in plain bodies declared generated; do
    mkdir "$work/$shape" && python3 "$here/reading.py" "$shape" "$top/crates/demacro/out/demacro" "$work/$shape" || exit
done
echo "load $(uptime | sed 's/.*load average: //')"
