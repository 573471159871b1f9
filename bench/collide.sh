#!/bin/sh
# Times id maps and styles whose ids would collide in a hash map with the toolchain's fixed seed, beside those whose ids
# follow each other: a query over an overlay with such a map, and an attribute behind such a style. No factor is to be
# above three. Each command runs three times; the least time counts.
#
# Needs GNU time (Debian's package time) and python3.
. "$(dirname "$0")/common.sh"
cd "$work" || exit 1
echo '{"density":320}' >device
python3 "$here/make_rows.py" 24 table.arsc || exit 1
echo '[{"table":"table.arsc"},{"table":"table.arsc","map":"map"}]' >map-layers
echo '[{"table":"style.arsc"}]' >style-layers
printf '%-8s %-10s %14s %14s %10s\n' ids of 'in a row, s' 'colliding, s' factor
for count in 25000 50000 100000 200000; do
    for kind in map style; do
        for how in row colliding; do
            python3 "$here/make_colliding.py" "$kind" "$how" "$count" "$kind" || exit 1
            case $kind in
            map) time=$(seconds "$program" query map-layers device 0x7f010000) ;;
            style) mv style style.arsc && time=$(seconds "$program" attr style-layers device 0x01010000 0x7f010000) ;;
            esac || exit 1
            [ "$how" = row ] && row=$time
        done
        echo "$row $time" | awk -v count="$count" -v kind="$kind" \
            '{ printf "%-8s %-10s %14s %14s %10s\n", count, kind, $1, $2, $1 > 0 ? sprintf("%.1f", $2 / $1) : "" }'
    done
done
