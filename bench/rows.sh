#!/bin/sh
# Times `restool rows` on tables: rows.sh TABLE.. With no table, on tables of 1, 4 and 16 times 60,000
# rows that it makes. Prints wall time, peak memory and sizes. Needs GNU time (Debian's package time),
# and python3 to make tables.
. "$(dirname "$0")/common.sh"

measure() {
    /usr/bin/time -f '%e %M' -o "$work/time" "$program" rows "$1" >"$work/rows.txt" || exit 1
    read -r seconds kibibytes <"$work/time"
    rows=$(grep -c '^row ' "$work/rows.txt")
    input=$(wc -c <"$1")
    output=$(wc -c <"$work/rows.txt")
    above=$(((kibibytes * 1024 - input) / (rows > 0 ? rows : 1)))
    echo "$(basename "$1"): $input bytes, $rows rows, $seconds s, peak $kibibytes KiB" \
        "($above bytes a row above the input), output $output bytes"
}

if [ $# -gt 0 ]; then
    for table in "$@"; do measure "$table"; done
else
    for rows in 60000 240000 960000; do
        python3 "$here/make_rows.py" "$rows" "$work/$rows.arsc" && measure "$work/$rows.arsc"
    done
fi
