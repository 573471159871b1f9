#!/bin/sh
# Times the merging of bags. First `restool bag`, which also prints each row, on tables of a bag and its parent with more and more rows: the
# time of a row is not to grow with their number. It is that of `bag` less that of a query of the same bag, which
# opens the table and merges nothing. Then on the table of Android's framework: `restool attr` with all its bags
# as styles, so that each is merged with its parents and applied in one run, for two devices.
# Each command runs three times; the least time counts.
#
# The framework's table is that of Debian's package android-framework-res. Where it is not installed the
# package is downloaded with apt-get and unpacked into a temporary folder. Needs GNU time (Debian's package
# time) and python3.
#
# Status 0: all was measured. 1: a command failed. 2: the framework's table is not to be had; the rest is
# measured all the same.
. "$(dirname "$0")/common.sh"
cd "$work" || exit 1
echo '{"density":320}' >phone
echo '{"density":213,"locale":"de-DE","sdk":27,"screenSize":4,"night":2,"uiType":4}' >television

# ---- tables of few and of many rows

echo '[{"table":"bags.arsc"}]' >layers
printf '%-16s %10s %10s %14s\n' 'rows of each bag' 'query, s' 'bag, s' 'a row, us'
for rows in 100000 200000 400000 800000; do
    python3 "$here/make_bags.py" "$rows" bags.arsc || exit 1
    opening=$(seconds "$program" query layers phone 0x7f010000) || exit 1
    merging=$(seconds "$program" bag layers phone 0x7f010000) || exit 1
    if [ "$(wc -l <printed)" != "$rows" ]; then
        echo "bags.sh: $rows rows are due, $(wc -l <printed) were printed" >&2
        exit 1
    fi
    echo "$rows $opening $merging" | awk '{ printf "%-16s %10s %10s %14.3f\n", $1, $2, $3, ($3 - $2) * 1e6 / $1 }'
done

# ---- the framework's table

if ! framework; then
    echo "bags.sh: the framework's table is not to be had" >&2
    exit 2
fi
echo '[{"table":"framework.arsc"}]' >layers
"$program" rows framework.arsc | awk '$1 == "row" && $4 == "bag" { print $2 }' | sort -u >ids
echo "the framework's table, $(wc -l <ids) ids of bags:"
for device in phone television; do
    "$program" query layers "$device" $(cat ids) | awk '$2 == "bag" && $1 == $3 { print $1 }' >bags
    head -n 1 bags >bag
    one=$(seconds "$program" attr layers "$device" 0x01010000 $(cat bag)) || exit 1
    all=$(seconds "$program" attr layers "$device" 0x01010000 $(cat bags)) || exit 1
    echo "$device: one bag $one s, all $(wc -l <bags) bags that it selects $all s"
    echo "$one $all $(wc -l <bags)" | awk '{ printf "  %.2f us a bag\n", ($2 - $1) * 1e6 / $3 }'
done
