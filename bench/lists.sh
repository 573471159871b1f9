#!/bin/sh
# Times `restool make` and `restool check` for one id and a box that lists 10 to 512 values, of the locale or of the mnc,
# where the id has a row for each of them; and for two lists of 200 values each.
# Each command runs three times; the least time counts. Needs GNU time (Debian's package time) and python3.
. "$(dirname "$0")/common.sh"
cd "$work" || exit 1
echo '[{"table":"table.arsc"}]' >layers

# of_list COUNT QUALIFIER..
of_list() {
    count=$1
    shift
    python3 "$here/make_list.py" "$count" table.arsc box "$@" || return
    made=$(timed 3 '{"goals"' "$program" make --max-nodes 1000000 layers box 0x7f010000) || return
    mv printed certificate
    checked=$(timed 3 'accepted goals 1' "$program" check layers box certificate 0x7f010000) || return
    tests=$(grep -o '"coord"' certificate | wc -l)
    echo "$count $((2 * tests + 1)) $made $checked" |
        awk -v list="$*" '{ printf "%-12s %6d %8d %10s s %10s s\n", list, $1, $2, $3, $5 }'
}

printf '%-12s %6s %8s %12s %12s\n' list values nodes make check
for qualifier in locale mnc; do
    for count in 10 20 40 80 160 320 512; do
        of_list "$count" "$qualifier" || exit 1
    done
done
of_list 200 locale mnc || exit 1
