#!/bin/sh
# Times what goes over all resources of the table of Android's framework, for the devices of a phone maker: `restool make` of all
# ids that have a value; `diff` of two builds of the table that differ in ten rows, which is to take four times as long at most;
# `values`, one and a half times; and `unused`, if the program has it. Then `diff` of two files of one build, beside a query that
# opens both: one and a half times as long at most.
# The first run five times, in turn, and those of one build ten times; the least time counts, and the greatest peak of memory.
# Beside other work look at what they take of the processor.
#
# The framework's table is found as in make.sh. Needs GNU time (Debian's package time) and python3.
#
# Status 0: all was measured. 1: a command failed. 2: the framework's table is not to be had.
. "$(dirname "$0")/common.sh"
cd "$work" || exit 1

if ! framework; then
    echo "diff.sh: the framework's table is not to be had" >&2
    exit 2
fi
cp framework.arsc again.arsc
python3 "$here/change_rows.py" 10 framework.arsc changed.arsc >rows || exit 1
for table in framework again changed; do
    echo "[{\"table\":\"$table.arsc\"}]" >"$table.layers"
done
echo '[{"table":"framework.arsc"},{"table":"again.arsc"}]' >both.layers
echo '{"density":320}' >device
box=$here/phones.json

# ---- all resources

all="--max-nodes 1000000 framework.layers"
set -- "$program make --omit $all $box '*'" "$program diff $all changed.layers $box" "$program values $all $box"
"$program" unused --help >help 2>&1 && set -- "$@" "$program unused $all $box"
python3 "$here/least.py" 5 "$@" 2>told >times || { tail -n 1 told >&2; exit 1; }
"$program" diff $all changed.layers "$box" >changes
"$program" values $all "$box" >said || exit 1
echo "the framework's table, $(wc -c <framework.arsc) bytes: $(tail -n 1 said), in $(wc -l <said) lines;" \
    "beside one of which $(wc -l <rows) rows are others: $(grep -c '^changed ' changes) changes, $(tail -n 1 changes)"
awk 'BEGIN { split("make diff values unused", names) }
    NR == 1 { wall = $1; worked = $3 }
    { printf "  %s %.2f s, %.2f of the processor, %.0f MB; %.2f and %.2f of make\n", names[NR], $1 / 1e3, $3 / 1e3, $2 / 1e6, $1 / wall, $3 / worked }' times

# ---- one build

python3 "$here/least.py" 10 "$program query both.layers device 0x02010000" "$program diff framework.layers again.layers $box" \
    "$program diff framework.layers framework.layers $box" >times || exit 1
awk 'NR == 1 { opened = $1; printf "two files of one build:\n  opened %.2f ms, %.2f MB\n", $1, $2 / 1e6 }
    NR > 1 { printf "  diff %s %.2f ms, %.2f MB, %.2f of that\n", NR == 2 ? "of both" : "of one with itself", $1, $2 / 1e6, $1 / opened }' times
