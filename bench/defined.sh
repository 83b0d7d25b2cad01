#!/bin/sh
# Runs random programs whose behaviour is defined, as `demacro run` does under three orders and as gcc compiles them, and says where
# output or status differ. usage: defined.sh PROGRAM [COUNT [FIRST]], where PROGRAM is a built `demacro`.
. "$(dirname "$0")/common.sh"
program=$(realpath "$1") || exit 2
count=${2:-300}
first=${3:-1}
cd "$work" || exit 2
differences=0
seed=$first
while [ "$seed" -lt $((first + count)) ]; do
    python3 "$here/defined.py" "$seed" > a.c || exit 2
    gcc -std=c11 -pedantic-errors -w -o compiled a.c || exit 2
    ./compiled > wanted
    printf '[exit %d]\n' $? >> wanted
    for order in 0 1 "$seed"; do
        "$program" run a.c a.c --order "$order" --steps 100000000 > got
        if ! cmp -s wanted got; then
            echo "seed $seed, order $order: $(tail -n 1 got), and not $(tail -n 1 wanted)"
            differences=$((differences + 1))
        fi
    done
    seed=$((seed + 1))
done
echo "$count programs, $differences differences"
[ "$differences" -eq 0 ]
