#!/bin/sh
# Times the cut into tokens against `gcc -E` on the same generated files. A line for each file says the ratio of the best
# of five times, and the lexer's peak memory in bytes a byte of source. Proves and builds the lexer first.
. "$(dirname "$0")/common.sh"
prove lex_count run -- /dev/null
for shape in macros line splices slashes apostrophes quotes identifier bytes; do
    python3 "$here/generate.py" "$shape" > "$work/$shape.c" || exit
    python3 "$here/compare.py" "$shape" "$top/crates/lex_count/out/lex_count" "$work/$shape.c" || exit
done
