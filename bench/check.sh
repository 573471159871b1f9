#!/bin/sh
# Times `restool check`. First on certificates of 999,999 nodes in one chain, to the right and to the left, over a box
# of ranges, and over one that also has choices of up to 512 values: the time of checking is that of `check` less that of
# a run that asks for another id, which is rejected as soon as the certificate is read. Then on the table of Android's framework: a certificate with one leaf for each id that
# ends alike, by the same decisions, at all densities from 1 to 32767. The time of an id there is that of all less
# that of reading alone, and it is printed beside that of `restool query`.
# Each command runs three times, and once on the boxes with choices; the least time counts, and the greatest peak of
# memory.
#
# The framework's table is that of Debian's package android-framework-res. Where it is not installed the
# package is downloaded with apt-get and unpacked into a temporary folder. Needs GNU time (Debian's package
# time) and python3.
#
# Status 0: all was measured. 1: a command failed. 2: the framework's table is not to be had; the rest is
# measured all the same.
. "$(dirname "$0")/common.sh"
cd "$work" || exit 1

# ---- chains

# One value for each id, in the default configuration.
python3 "$here/make_rows.py" 24 table.arsc || exit 1
echo '[{"table":"table.arsc"}]' >layers
printf '%-16s %12s %22s %22s %18s\n' chain 'certificate' 'reading' 'reading and checking' 'checking/reading'
for chain in 'right none 3' 'left none 3' 'right choices 1' 'left choices 1'; do
    set -- $chain
    python3 "$here/make_chain.py" "$1" "$2" 1000000 box certificate || exit 1
    reading=$(timed 3 'rejected goal 0 node 0 N1' "$program" check layers box certificate 0x7f020000) || exit 1
    both=$(timed "$3" 'accepted goals 1 nodes 999999' "$program" check layers box certificate 0x7f010000) || exit 1
    case $2 in none) name=$1 ;; *) name="$1, choices" ;; esac
    echo "$(wc -c <certificate) $reading $both" | awk -v name="$name" '{
        printf "%-16s %9.1f MB %10s s %6s MB %10s s %6s MB %18.2f\n", name, $1 / 1e6, $2, $3, $4, $5, ($4 - $2) / $2 }'
done

# ---- the framework's table

if ! framework; then
    echo "check.sh: the framework's table is not to be had" >&2
    exit 2
fi
echo '[{"table":"framework.arsc"}]' >layers
cp "$here/../examples/porcelain/phone.json" phone
"$program" rows framework.arsc | awk '$1 == "row" { print $2 }' | sort -u >all
python3 "$here/make_leaves.py" "$program" layers phone box certificate <all >ids || exit 1
head -n 1 ids >id
count=$(wc -l <ids)
# (the first id asked twice, where the certificate has the second)
reading=$(timed 3 'rejected goal 1 node 0 N1' "$program" check layers box certificate $(cat id id)) || exit 1
both=$(timed 3 "accepted goals $count nodes $count" "$program" check layers box certificate $(cat ids)) || exit 1
one=$(seconds "$program" query layers phone $(cat id)) && queried=$(seconds "$program" query layers phone $(cat ids)) || exit 1
echo "the framework's table, $(wc -c <framework.arsc) bytes, $(wc -l <all) ids, $count of them with one leaf over all densities:"
echo "$count $reading $both $one $queried" | awk '{
    check = ($4 - $2) * 1e6 / $1; query = ($7 - $6) * 1e6 / $1
    printf "  opening, and reading the certificate %s s, with checking %s s: %.2f us an id\n", $2, $4, check
    printf "  query of one id %s s, of these ids %s s: %.2f us an id\n", $6, $7, query
    if (query > 0) printf "  check/query of an id: %.1f\n", check / query
}'
