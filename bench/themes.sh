#!/bin/sh
# Times `restool make` over the attributes that themes of Android's framework set, each under its theme, for the devices of
# a phone maker. Attributes that have no value on some device are dropped first. Then one certificate is made for all
# others of a theme, and `restool check` reads and checks it. Each command runs three times; the least time counts, and the
# greatest peak of memory.
#
# The framework's table is found as in make.sh. Needs GNU time (Debian's package time) and python3.
#
# Status 0: all was measured. 1: a command failed. 2: the framework's table is not to be had.
. "$(dirname "$0")/common.sh"
cd "$work" || exit 1

# of_theme NAME: makes and checks a certificate for the attributes that a theme sets on a phone.
of_theme() {
    style=$(grep "\"style\"/\"$1\" " dump | awk '{ print $1; exit }')
    "$program" bag layers phone "$style" | awk -v style="$style" '{ print $1 "@" style }' | sort -u >all
    python3 "$here/make_goals.py" "$program" layers "$here/phones.json" <all >goals 2>dropped ||
        { cat dropped >&2; return 1; }
    count=$(wc -l <goals)
    made=$(timed 3 '{"goals"' "$program" make --max-nodes 1000000 layers "$here/phones.json" $(cat goals)) || return
    mv printed certificate
    nodes=$(python3 -c 'import json
print(sum(len(goal["nodes"]) for goal in json.load(open("certificate"))["goals"]))') || return
    checked=$(timed 3 "accepted goals $count nodes $nodes" "$program" check layers "$here/phones.json" certificate \
        $(cat goals)) || return
    echo "$(wc -l <all) $count $made $checked $nodes" | awk -v name="$1" '{
        printf "%s: of %d attributes %d have a value on all devices, %d are counterexamples\n", name, $1, $2, $1 - $2
        printf "  nodes: %d; make %s s, %s MB; check %s s, %s MB\n", $7, $3, $4, $5, $6 }'
}

if ! framework; then
    echo "themes.sh: the framework's table is not to be had" >&2
    exit 2
fi
echo '[{"table":"framework.arsc"}]' >layers
echo '{"density":320,"sdk":27,"locale":"de-DE","smallestWidthDp":360,"widthDp":360,"heightDp":640,"screenSize":2}' >phone
"$program" dump framework.arsc >dump
of_theme Theme.Material.Light && of_theme Theme.Holo
