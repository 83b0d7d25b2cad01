#!/bin/sh
# Times the reading and the typing of large external declarations, each at two sizes of which the second is twice the first: a
# line for each kind says the ratio of the best of five times, which is about 2 where the time is linear. A time has in it what it
# takes to make the tokens, and for typing what it takes to read them. Proves and builds the tests first.
. "$(dirname "$0")/common.sh"
for crate in syntax_tests unit_tests; do
    prove "$crate" test
    python3 "$here/externals.py" "$crate" "$top/crates/$crate/out/${crate}_tests" || exit
done
