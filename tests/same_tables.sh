#!/bin/sh
# Holds what restool says of two tables against each other: same_tables.sh PROGRAM TABLE TABLE. `rows`, `dump`, `query`
# of all ids for three devices, and the certificate of a box that is made of one and checked of the other. Status 0: it
# is the same.
program=$(realpath "$1") && first=$(realpath "$2") && second=$(realpath "$3") || exit 2
work=$(mktemp -d) || exit 2
trap 'rm -rf "$work"' EXIT
cd "$work" || exit 2
printf '[{"table":"%s"}]' "$first" >first
printf '[{"table":"%s"}]' "$second" >second
echo '{"density":160}' >bare
echo '{"density":320,"locale":"de-DE","night":2,"sdk":26}' >dark
echo '{"density":320,"locale":"de-DE","night":1,"sdk":27}' >late
echo '{"density":[160],"locale":["","de-DE","fr"],"night":[1,2],"sdk":{"from":26,"to":28}}' >box

# same WORD..: both answer these words alike; FIRST in a word stands for the table or the layers.
failed=0
same() {
    "$program" $(echo "$*" | sed "s|TABLE|$first|; s|LAYERS|first|") >one 2>&1
    one=$?
    "$program" $(echo "$*" | sed "s|TABLE|$second|; s|LAYERS|second|") >two 2>&1
    two=$?
    if [ "$one" != "$two" ] || [ "$one" -gt 1 ] || ! cmp one two >&2; then
        echo "same_tables.sh: status $one and $two: $(echo "$*" | head -c 100)" >&2
        failed=1
    fi
}
same rows TABLE
ids=$(awk '$1 == "row" { print $2 }' one | sort -u)
[ -n "$ids" ] || failed=1
same dump TABLE
for device in bare dark late; do
    same query LAYERS $device $ids
    for id in $(echo "$ids" | awk 'NR % 17 == 1'); do
        same explain LAYERS $device "$id"
        same bag LAYERS $device "$id"
    done
done
same make LAYERS box $ids
cp one certificate
same check LAYERS box certificate $ids
exit $failed
