#!/bin/sh
# Times `restool make` over all ids of the table of Android's framework, for three boxes: all densities from 120 to 640 with
# the other qualifiers of one phone, the devices of a phone maker, and these in the 67 locales of locale_values.txt, by either
# rule of locales. Ids that have no value on some device of a box are dropped first. Then one certificate is made for all others, and `restool check` reads and checks it.
# Each command runs three times; the least time counts, and the greatest peak of memory.
#
# The framework's table is that of Debian's package android-framework-res. Where it is not installed the package is
# downloaded with apt-get and unpacked into a temporary folder. Needs GNU time (Debian's package time) and python3.
#
# Status 0: all was measured. 1: a command failed. 2: the framework's table is not to be had.
. "$(dirname "$0")/common.sh"
cd "$work" || exit 1

cat >densities <<'END'
{"density":{"from":120,"to":640},"locale":["de-DE"],"sdk":[27],"smallestWidthDp":[360],"widthDp":[360],"heightDp":[640],
 "screenSize":[2],"orientation":[1],"night":[2]}
END

# of_box BOX NAME OPTION..: makes and checks certificates for the ids in `all`, with these options.
of_box() {
    box=$1 name=$2
    shift 2
    python3 "$here/make_goals.py" "$program" layers "$box" "$@" <all >goals 2>dropped || { cat dropped >&2; return 1; }
    count=$(wc -l <goals)
    made=$(timed 3 '{"goals"' "$program" make "$@" --max-nodes 1000000 layers "$box" $(cat goals)) || return
    mv printed certificate
    sizes=$(python3 -c 'import json
goals = json.load(open("certificate"))["goals"]
sizes = {goal["id"]: len(goal["nodes"]) for goal in goals}
largest = max(sizes, key=sizes.get)
print(sum(sizes.values()), sizes[largest], largest)') || return
    nodes=${sizes%% *}
    checked=$(timed 3 "accepted goals $count nodes $nodes" "$program" check "$@" layers "$box" certificate $(cat goals)) || return
    echo "$(wc -l <all) $count $(wc -c <certificate) $made $checked $sizes" | awk -v name="$name" '{
        printf "%s:\n  %d ids have a value on all devices, %d are counterexamples\n", name, $2, $1 - $2
        printf "  nodes: %d, %d in the largest tree, that of %s; the certificate has %.1f MB\n", $8, $9, $10, $3 / 1e6
        printf "  make %s s, %s MB; check %s s, %s MB\n", $4, $5, $6, $7 }'
}

if ! framework; then
    echo "make.sh: the framework's table is not to be had" >&2
    exit 2
fi
echo '[{"table":"framework.arsc"}]' >layers
"$program" rows framework.arsc | awk '$1 == "row" { print $2 }' | sort -u >all
echo "the framework's table, $(wc -c <framework.arsc) bytes, $(wc -l <all) ids"
python3 -c 'import json, sys
with open(sys.argv[1]) as phones, open(sys.argv[2]) as values:
    print(json.dumps({**json.load(phones), "locale": [line.split(" ")[0] for line in list(values)[1:]]}))' \
    "$here/phones.json" "$here/locale_values.txt" >many-locales || exit 1
of_box densities 'densities from 120 to 640 of one phone' && of_box "$here/phones.json" "a phone maker's devices" &&
    of_box many-locales 'these in 67 locales' && of_box many-locales 'the same as a phone compares locales' --locales android
