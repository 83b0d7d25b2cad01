#!/bin/sh
# Tries wrong bodies that the gate leaves out for the time they take: those in a crate's more-must-fail/ as well as those in its
# must-fail/. Each has to be refused by the prover. Works on a clone of what is committed, and proves the crates below first.
# usage: edits.sh NAME.. for crates by their names.
. "$(dirname "$0")/common.sh"
[ $# -gt 0 ] || exit 2
git clone -q "$top" "$work/checkout" && cd "$work/checkout" || exit 2
for name in "$@"; do
    [ -d "crates/$name/more-must-fail" ] || continue
    mkdir -p "crates/$name/must-fail" && mv "crates/$name/more-must-fail"/*.edit "crates/$name/must-fail/" || exit 2
done
rt must-fail "$@"
