#!/bin/sh
# Runs all tests: the gate, which proves every crate and runs its tests, and then the built program.
# The last line is 'N passed, M failed'; before it stand what the gate refused, and what it took.
here=$(CDPATH='' cd "$(dirname "$0")" && pwd) || exit 1
cd "$here" || exit 1
work=$(mktemp -d) || exit 1
trap 'rm -rf "$work"' EXIT
. "$here/tools/program.sh"

start=$(date +%s)
sum=$(sum_of_sources)
{
    rt ci 2>&1
    echo $? >"$work/status"
} | tee "$work/gate"
gate_status=$(cat "$work/status")
if [ "$gate_status" = 0 ]; then
    rt version >"$built/proved-with"
    if [ "$sum" = "$(sum_of_sources)" ]; then echo "$sum" >>"$built/proved-with"; fi
fi
gate_seconds=$(($(date +%s) - start))
# (not in a pipe, where it would print the times of a new process)
times >"$work/times"
gate_processor=$(awk '{ for (at = 1; at <= 2; at++) { split($at, it, /[ms]/); sum += it[1] + it[2] / 60 } } END { printf "%.0f", sum }' "$work/times")
sh tests/end_to_end.sh 2>&1 | tee "$work/runs"

# count FILE PLACE: the first or second number of the file's last line.
count() { tail -n 1 "$1" | sed -n "s/^\([0-9]*\) passed, \([0-9]*\) failed.*/\\$2/p"; }
gate_passed=$(count "$work/gate" 1)
gate_failed=$(count "$work/gate" 2)
runs_passed=$(count "$work/runs" 1)
runs_failed=$(count "$work/runs" 2)
passed=$((${gate_passed:-0} + ${runs_passed:-0}))
failed=$((${gate_failed:-1} + ${runs_failed:-1}))
if [ "$gate_status" != 0 ] && [ "$failed" = 0 ]; then failed=1; fi
grep '^rt: FAILED: ' "$work/gate"
echo "the gate took $gate_seconds seconds, and $gate_processor processor minutes"
echo "$passed passed, $failed failed"
[ "$failed" = 0 ]
