#!/bin/sh
# Times the reading of JSON texts as large as an input may be, and prints the peak of memory: as a device, which all of
# them but one are refused as, and as an id map. json.sh [PARTS]: of texts of a part of that size; 16 is a sixteenth.
# The largest ones take several GB. Lists in a list and objects in a list take most, so these are a sixteenth of the
# others. Each is read once, one after the other.
#
# Needs GNU time (Debian's package time) and python3.
. "$(dirname "$0")/common.sh"
cd "$work" || exit 1
parts=${1:-1}
python3 "$here/make_rows.py" 24 table.arsc || exit 1
echo '{"density":320}' >device
echo '[{"table":"table.arsc"}]' >layers
echo '[{"table":"table.arsc"},{"table":"table.arsc","map":"text"}]' >map-layers
printf '%-16s %12s %8s %9s  %s\n' text MB s 'peak, MB' answer
for kind in opened-lists opened-objects blanks number text escapes list-of-numbers list-of-lists list-of-objects members pairs; do
    case $kind in
    list-of-lists | list-of-objects) part=$((16 * parts)) ;;
    *) part=$parts ;;
    esac
    python3 "$here/make_json.py" "$kind" "$part" text || exit 1
    case $kind in
    pairs) words='map-layers device' ;;
    *) words='layers text' ;;
    esac
    /usr/bin/time -q -f '%e %M' -o time "$program" query $words 0x7f010000 >printed 2>&1
    awk -v kind="$kind" -v size="$(wc -c <text)" -v answer="$(head -n 1 printed)" \
        '{ printf "%-16s %12.1f %8s %9.0f  %s\n", kind, size / 1e6, $1, $2 / 1024, answer }' time
    rm text
done
