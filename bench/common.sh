# shellcheck shell=sh
# What the scripts of this folder share: the folders, a room for files that goes when the script ends, and `prove`. Read in by `.`.
here=$(cd "$(dirname "$0")" && pwd) || exit 2
top=$(dirname "$here")
work=$(mktemp -d) || exit 2
trap 'rm -rf "$work"' EXIT

# Proves and builds a crate by `rt` with these words, and ends the script with its status where that fails. usage: prove CRATE WORD..
prove() {
    crate=$1
    shift
    echo "Proving and building $crate. The first time on a machine this takes long." >&2
    (cd "$top/crates/$crate" && rt "$@") > "$work/log" 2>&1
    status=$?
    if [ "$status" -ne 0 ]; then
        cat "$work/log" >&2
        exit "$status"
    fi
    echo "load $(uptime | sed 's/.*load average: //')"
}
