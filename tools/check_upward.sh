#!/bin/sh
# Prints the crates that stand on these, lowest first: those to check after a change: check_upward.sh [--run] CRATE..
# With --run it runs `rt check` in each, and ends at the first that is not proved. The environment may give RT, the
# command that proves in place of rt.
here=$(CDPATH='' cd "$(dirname "$0")/.." && pwd) || exit 1
program=$(basename "$0")
. "$here/tools/crates_below.sh"

run=
if [ "$1" = --run ]; then
    run=yes
    shift
fi
listed=$(all_crates "$here/crates.txt")
[ $# -gt 0 ] || { echo "usage: $program [--run] CRATE.." >&2; exit 2; }
for crate in "$@"; do
    echo "$listed" | grep -qx -e "$crate" || { echo "$program: no crate $crate" >&2; exit 2; }
done

for crate in $(crates_above "$here/crates.txt" "$@"); do
    echo "$crate"
    [ -z "$run" ] || (cd "$here/crates/$crate" && ${RT:-rt} check) || { echo "$program: not proved: $crate" >&2; exit 1; }
done
