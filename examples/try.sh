#!/bin/sh
# Shows what the tool makes of the macros of an example project, in two or three minutes: builds the tool without proving it, plans the
# project, and shows the report. Ends with the status of the build, or else of the plan.
top=$(cd "$(dirname "$0")/.." && pwd) || exit 2
work=$(mktemp -d) || exit 2
trap 'rm -rf "$work"' EXIT
cd "$top/examples" || exit 2
echo "The project ring.json has two units, ring.c and main.c, and a header. Its macros:"
echo
grep -n '#define' ring.h main.c
echo
echo "The tool is now built, without proofs, and plans what becomes of them. Nothing is changed."
began=$(date +%s)
{
    (cd "$top/crates/demacro" && rt try --data ring.json="$top/examples/ring.json" --data ring.h="$top/examples/ring.h" \
        --data ring.c="$top/examples/ring.c" --data main.c="$top/examples/main.c" -- plan ring.json) > "$work/report" 2> "$work/log"
    echo $? > "$work/status"
} &
built=$!
while kill -0 "$built" 2> /dev/null; do
    printf '\r%s seconds' $(($(date +%s) - began))
    sleep 1
done
printf '\n\n'
status=$(cat "$work/status")
cat "$work/report"
if [ "$status" -ne 0 ]; then
    cat "$work/log"
    exit "$status"
fi
cat <<'TEXT'

A kept macro has the least rule that it breaks and the first place that breaks it: docs/RULES.md has a page for each rule, and
docs/GUIDE.md tells how to use the tool on a code base.

This build isn't proved: it is slow, and checks itself as it runs. To prove and build the program, in one and a half to two hours:

    python3 tools/build.py
TEXT
