#!/bin/sh
# Times `restool query`. First on tables of few and of many types and packages: the time of a look-up is
# that of a query of 100,001 ids less that of one id, and it is not to grow with what else the table has.
# Then on the table of Android's framework: all its ids in one query, beside `restool rows` of it.
# Each command runs three times; the least time counts.
#
# The framework's table is that of Debian's package android-framework-res. Where it is not installed the
# package is downloaded with apt-get and unpacked into a temporary folder. Needs GNU time (Debian's package
# time) and python3.
#
# Status 0: all was measured. 1: a command failed. 2: the framework's table is not to be had; the rest is
# measured all the same.
. "$(dirname "$0")/common.sh"
cd "$work" || exit 1
echo '{"density":320}' >device

# query TABLE IDS: the time of a query of the ids in a file, one a line.
query() {
    printf '[{"table":"%s"}]' "$1" >layers
    seconds "$program" query layers device $(cat "$2")
}

# ---- tables of few and of many types

awk 'BEGIN { for (n = 0; n < 100001; n++) printf "0x7f0100%02x\n", n % 16 }' >ids
head -n 1 ids >id
printf '%-9s %-6s %8s %14s %18s\n' packages types rows 'one id, s' 'a look-up, us'
for shape in '1 1' '1 16' '1 255' '16 16' '100 16'; do
    set -- $shape
    python3 "$here/make_types.py" "$1" "$2" table.arsc || exit 1
    one=$(query table.arsc id) && many=$(query table.arsc ids) || exit 1
    echo "$one $many" | awk -v packages="$1" -v types="$2" \
        '{ printf "%-9s %-6s %8s %14s %18.2f\n", packages, types, packages * types * 32, $1, ($2 - $1) * 10 }'
done

# ---- the framework's table

if ! framework; then
    echo "query.sh: the framework's table is not to be had" >&2
    exit 2
fi
rows=$(seconds "$program" rows framework.arsc) || exit 1
awk '$1 == "row" { print $2 }' printed | sort -u >ids
awk '$1 == "row"' printed | wc -l >candidates
head -n 1 ids >id
one=$(query framework.arsc id) && all=$(query framework.arsc ids) || exit 1
echo "the framework's table, $(wc -c <framework.arsc) bytes, $(cat candidates) rows, $(wc -l <ids) ids:"
echo "  rows            $rows s"
echo "  query of one id $one s"
echo "  query of all    $all s"
echo "$one $all $(wc -l <ids) $(cat candidates)" |
    awk '{ printf "  %.2f us an id, %.3f us a candidate\n", ($2 - $1) * 1e6 / $3, ($2 - $1) * 1e6 / $4 }'
