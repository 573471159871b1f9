#!/bin/sh
# Runs the built program on real files, streams and wrong words. Its last line is 'N passed, M failed'.
here=$(CDPATH='' cd "$(dirname "$0")/.." && pwd) || exit 1
work=$(mktemp -d) || exit 1
trap 'rm -rf "$work"' EXIT
. "$here/tools/program.sh"
build_program || { echo "0 passed, 1 failed"; exit 1; }
passed=0
failed=0

# check NAME STATUS OUT ERR WORDS..: the program on these words, with standard input from $input, ends
# with this status, and what it writes to both streams is what these files have.
input=/dev/null
check() {
    name=$1 status=$2 out=$3 err=$4
    shift 4
    "$program" "$@" <"$input" >"$work/out" 2>"$work/err"
    got=$?
    if [ "$got" = "$status" ] && cmp -s "$work/out" "$out" && cmp -s "$work/err" "$err"; then
        passed=$((passed + 1))
    else
        failed=$((failed + 1))
        echo "failed: $name (status $got, wanted $status)"
        head -n 3 "$work/out" "$work/err"
    fi
}

# ends NAME STATUS COMMAND: the command, run by sh with the program as its $0, ends with this status.
ends() {
    sh -c "$3" "$program" >"$work/out" 2>"$work/err"
    got=$?
    if [ "$got" = "$2" ]; then
        passed=$((passed + 1))
    else
        failed=$((failed + 1))
        echo "failed: $1 (status $got, wanted $2)"
        head -n 3 "$work/err"
    fi
}

line() { printf '%s\n' "$2" >"$work/$1"; }
none=/dev/null
tables=$here/tests/tables
teapot=$here/examples/teapot
cd "$work" || exit 1

# ---- rows
check "rows of a real table" 0 "$tables/plain.rows.txt" $none rows "$tables/plain.arsc"
check "rows of a table with bags" 0 "$tables/rich.rows.txt" $none rows "$tables/rich.arsc"
check "rows of the example" 0 "$teapot/rows.txt" $none rows "$teapot/resources.arsc"
input=$tables/plain.arsc
check "rows of standard input" 0 "$tables/plain.rows.txt" $none rows -
check "no words" 0 "$tables/plain.rows.txt" $none
input=/dev/null

head -c 1000 "$tables/plain.arsc" >cut
line cut.err 'refused: table: Chunk Oversize 0'
check "a table that is cut" 3 $none cut.err rows cut
line short.err 'refused: table: Chunk Truncated 0'
check "no table" 3 $none short.err rows /dev/null

# ---- dump
check "dump of a table with bags" 0 "$tables/rich.dump.txt" $none dump "$tables/rich.arsc"
input=$tables/rich.arsc
check "dump of standard input" 0 "$tables/rich.dump.txt" $none dump -
input=/dev/null
{ cat "$tables/rich.arsc"; printf 'what follows a table'; } >followed
check "dump of a table that something follows" 0 "$tables/rich.dump.txt" $none dump followed

# The header of the table's string pool claims 24 bytes.
cp "$tables/rich.arsc" poolless
printf '\030' | dd of=poolless bs=1 seek=14 conv=notrunc 2>/dev/null
line poolless.err 'refused: table: Pool HeaderSize 12'
check "dump of a refused table" 3 $none poolless.err dump poolless
check "rows of a refused table" 3 $none poolless.err rows poolless
line oversize.err 'refused: table: Chunk Oversize 0'
for command in rows dump; do
    size=$(wc -c <"$tables/rich.arsc")
    for length in 0 1 7 8 12 40 1000 $((size - 4)) $((size - 1)); do
        head -c "$length" "$tables/rich.arsc" >rich.cut
        if [ "$length" -lt 8 ]; then fault=short.err; else fault=oversize.err; fi
        check "$command of a table's first $length bytes" 3 $none $fault "$command" rich.cut
    done
done

# Many strings. The expected text is made from the lists that the table is made from.
if command -v python3 >/dev/null; then
    for form in '' ' --utf16'; do
        python3 "$here/bench/make_strings.py" $form --expect 20000 30 strings.arsc >strings.dump.txt
        check "dump of 20,000 strings in 30 languages$form" 0 strings.dump.txt $none dump strings.arsc
    done
    rm -f strings.arsc strings.dump.txt
else
    echo "not run, since python3 is missing: dump of 20,000 strings in 30 languages"
fi

# ---- sparse types, beside the same tables with dense ones
ends "a table that aapt2 wrote with sparse types" 0 "sh '$here/tests/same_tables.sh' \"\$0\" '$tables/dense.arsc' '$tables/sparse.arsc'"
if command -v python3 >/dev/null; then
    ends "random tables with sparse types" 0 "python3 '$here/tests/check_sparse.py' \"\$0\" 40 4"
    ends "hostile bytes of small tables" 0 "python3 '$here/tests/hostile_bytes.py' \"\$0\" 4"
    ends "worked rows of small tables and texts" 0 "python3 '$here/tests/worked_rows.py' \"\$0\" 4"
    ends "worked reports of small tables and certificates" 0 "python3 '$here/tests/worked_reports.py' \"\$0\" 4"
    ends "worked styles and bags" 0 "python3 '$here/tests/worked_styles.py' \"\$0\" 4"
    ends "worked answers in Android's notation" 0 "python3 '$here/tests/worked_notation.py' \"\$0\" 4"
    ends "worked devices and configurations" 0 "python3 '$here/tests/worked_configurations.py' \"\$0\" 4"
    ends "worked words: apks, lists of layers, devices" 0 "python3 '$here/tests/worked_words.py' \"\$0\" 4"
    ends "hints on a terminal, and none elsewhere" 0 "python3 '$here/tests/worked_hints.py' \"\$0\" 4"
    ends "random words of layers and devices" 0 "python3 '$here/tests/check_words.py' \"\$0\" 600 4"
    ends "random apks" 0 "python3 '$here/tests/check_apks.py' \"\$0\" 600 4"
    ends "worked boxes" 0 "python3 '$here/tests/worked_boxes.py' \"\$0\" 4"
else
    echo "not run, since python3 is missing: random tables with sparse types, hostile bytes, worked cases"
fi

# ---- map
porcelain=$here/examples/porcelain
check "the map of an overlay" 0 "$porcelain/map.json" $none map "$teapot/resources.arsc" "$porcelain/resources.arsc"
input=$teapot/resources.arsc
check "the map for a target on standard input" 0 "$porcelain/map.json" $none map - "$porcelain/resources.arsc"
input=$porcelain/resources.arsc
check "the map of an overlay on standard input" 0 "$porcelain/map.json" $none map "$teapot/resources.arsc" -
awk '$1 == "row" { print $2 }' "$tables/rich.rows.txt" | sort -u |
    awk '{ printf "%s[\"%s\",\"%s\"]", (NR > 1 ? ",\n " : "["), $1, $1 } END { print "]" }' >own.map
input=$tables/rich.arsc
check "the map of a table to itself, on standard input" 0 own.map $none map - -
input=/dev/null
grep -o '\["0x[^]]*\]' "$tables/overlay-map.json" | sort |
    awk '{ printf "%s%s", (NR > 1 ? ",\n " : "["), $0 } END { print "]" }' >rich.map
printf '%s\n' 'unmapped 0x7f020003 "string"/"own_only"' \
    'astray 0x7f020004 "string"/"settings" to 0x7f020003 "string"/"own_only"' >rich.lines
check "a map that leaves something out" 1 rich.map rich.lines map "$tables/rich.arsc" "$tables/overlay.arsc"
line empty.map '[]'
cp "$here/crates/restool/stdin" whole
check "the map of a table without rows" 0 empty.map $none map "$tables/rich.arsc" whole
cut=cut.arsc
head -c 1000 "$tables/rich.arsc" >$cut
line target.err 'refused: layer 0 table: Chunk Oversize 0'
check "a target that is cut comes before the overlay" 3 $none target.err map $cut $cut
line overlay.err 'refused: layer 1 table: Chunk Oversize 0'
check "an overlay that is cut" 3 $none overlay.err map "$tables/rich.arsc" $cut
line nowhere.err 'file: nowhere'
check "an absent overlay comes before a target that is cut" 5 $none nowhere.err map $cut nowhere
check "an absent target comes before an absent overlay" 5 $none nowhere.err map nowhere elsewhere
if [ -w /dev/full ]; then
    ends "a map to a full output" 5 "\"\$0\" map '$teapot/resources.arsc' '$porcelain/resources.arsc' >/dev/full"
    ends "lines of a map to a full stream" 5 "\"\$0\" map '$porcelain/resources.arsc' '$teapot/resources.arsc' 2>/dev/full"
fi
if command -v python3 >/dev/null; then
    ends "random maps" 0 "python3 '$here/tests/check_map.py' \"\$0\" 400 4"
    ends "random names" 0 "python3 '$here/tests/check_names.py' \"\$0\" 200 4"
else
    echo "not run, since python3 is missing: random maps"
fi

# ---- ids: the names of a dump, each once and without quotes
sed -n 's/^  \(0x[0-9a-f]* [^ ]*\) .*/\1/p' "$tables/rich.dump.txt" | tr -d '"' | sort -u >rich.ids
cd "$tables" || exit 1
check "ids of real layers" 0 "$work/rich.ids" $none ids rich.layers.json
check "ids of real layers with an overlay" 0 "$work/rich.ids" $none ids rich-overlay.layers.json
cd "$work" || exit 1
of_porcelain="cd '$here' && \"\$0\" ids examples/porcelain/layers.json"
if [ -w /dev/full ]; then
    ends "ids to a full output" 5 "$of_porcelain >/dev/full"
fi
ends "ids to a closed output" 5 "$of_porcelain >&-"
if command -v python3 >/dev/null; then
    ends "random ids" 0 "python3 '$here/tests/check_ids.py' \"\$0\" 400 4"
else
    echo "not run, since python3 is missing: random ids"
fi

# ---- query, explain, bag and attr

# answers LAYERS DEVICE: the ends of all ids of rich.arsc, of which some are absent, how each comes to its end, the
# rows of all bags, and attributes after some of these as styles.
answers() {
    cd "$tables" || exit 1
    check "answers of $1 for $2" 1 "$1.$2.query.txt" $none query "$1.layers.json" "$2.device.json" \
        $(awk '$1 == "row" { print $2 }' rich.rows.txt | sort -u)
    if command -v python3 >/dev/null; then
        ends "explanations of $1 for $2" 0 \
            "python3 '$here/tests/check_explanations.py' \"\$0\" $1.layers.json $2.device.json 4"
        ends "bags and attributes of $1 for $2" 0 \
            "python3 '$here/tests/check_bags.py' \"\$0\" $1.layers.json $2.device.json 4"
        ends "answers of $1 for $2 in Android's notation" 0 \
            "python3 '$here/tests/check_notation.py' \"\$0\" $1.layers.json $2.device.json 4"
    else
        echo "not run, since python3 is missing: explanations, bags and attributes of $1 for $2, and Android's notation of them"
    fi
    cd "$work" || exit 1
}
for device in bare phone-fr tablet-de; do
    answers rich $device
    answers rich-overlay $device
done
if command -v python3 >/dev/null; then
    ends "locales as a phone compares them" 0 "python3 '$here/tests/check_locales.py' \"\$0\" 300 4"
else
    echo "not run, since python3 is missing: locales as a phone compares them"
fi

cp "$tables/rich.arsc" base
cp "$tables/overlay.arsc" overlay
cp "$tables/overlay-map.json" map
line device '{"density":160}'
line layers '[{"table":"base"},{"table":"overlay","map":"map"}]'
line one.out "$(grep '^0x7f060000 ' "$tables/rich-overlay.bare.query.txt")"
echo 'set-aside 2' >>one.out
check "an id of an overlay" 0 one.out $none query layers device 0x7f060000
line no-layers '[]'
line absent.out '0x7f060000 absent 0x7f060000'
echo 'set-aside 0' >>absent.out
check "no layers" 1 absent.out $none query no-layers device 0x7f060000
printf 'lookup 0x7f060000\nend absent 0x7f060000\n' >explained.out
check "an explanation without candidates" 1 explained.out $none explain no-layers device 0x7f060000
line bagless.out 'no bag Absent'
check "a bag that is not there" 1 bagless.out $none bag no-layers device 0x7f0c0000
check "an attribute after a style that is not there" 1 bagless.out $none attr no-layers device 0x01010036 0x7f0c0000

# refused NAME LINE: a query of these layers and this device is refused with this line.
refused() {
    line refused.err "$2"
    check "$1" 3 $none refused.err query layers device 0x7f060000
}
line device '{"night":4}'
refused "a wrong device" 'refused: device: FieldRange night'
line map '[["0x7f060000","0x7f040001"],["0x7f060000","0x7f040000"]]'
refused "a wrong map comes before the device" 'refused: layer 1 map: Repeated 0x7f060000'
head -c 100 "$tables/overlay.arsc" >overlay
refused "a wrong table comes before its map" 'refused: layer 1 table: Chunk Oversize 0'
line layers '[{"table":"base","maps":"map"}]'
refused "a list of layers of wrong shape" 'refused: layers: Shape'
rm device
refused "a wrong list of layers comes before the device's file" 'refused: layers: Shape'
line layers '[{"table":"base"},{"table":"nowhere","map":"map"}]'
line nowhere.err 'file: nowhere'
check "an absent table of a layer" 5 $none nowhere.err query layers device 0x7f060000
awk 'BEGIN { printf "["; for (n = 0; n < 65; n++) printf "%s{\"table\":\"base\"}", (n ? "," : ""); print "]" }' >layers
refused "65 layers" 'refused: layers: TooManyLayers'
line layers '[{"table":"base"}]'
line device.err 'file: device'
check "an absent device" 5 $none device.err query layers device 0x7f060000
line id.err 'command: bad id 0x7f06'
check "a word that is no id" 2 $none id.err query layers device 0x7f060000 0x7f06 x
line rule.err 'command: bad rule of locales Android'
check "a word that is no rule of locales" 2 $none rule.err query --locales Android layers device 0x7f06

# ---- check
cp "$here/crates/restool/stdin" whole
line layers '[{"table":"whole"}]'
line box '{"density":{"from":120,"to":640}}'

# verdict NAME STATUS NODES LINE..: a check of these nodes for 0x7f010000, which no table has, ends with this status and
# prints these lines.
verdict() {
    name=$1 status=$2
    line certificate "{\"version\":1,\"goals\":[{\"id\":\"0x7f010000\",\"nodes\":[$3]}]}"
    shift 3
    printf '%s\n' "$@" 'set-aside 0' >verdict.out
    check "$name" "$status" verdict.out $none check layers box certificate 0x7f010000
}
leaf='{"layer":0,"kind":16,"word":1}'
verdict "no nodes" 1 '' 'rejected goal 0 node 0 N2 EndsEarly'
verdict "a test alone" 1 '{"coord":"density","atMost":160}' 'rejected goal 0 node 1 N2 EndsEarly'
verdict "a wrong kind of test" 1 '{"coord":"locale","atMost":0}' 'rejected goal 0 node 0 N4 TestKind'
verdict "a test that all devices pass" 1 '{"coord":"density","atMost":640}' 'rejected goal 0 node 0 N5 EmptyHalf'
verdict "a leaf without a value" 1 "$leaf,$leaf" 'rejected goal 0 node 0 N7 NoValue' 'device density=120' \
    'end absent 0x7f010000'
verdict "the first leaf comes first" 1 '{"coord":"density","atMost":160},'"$leaf,$leaf,$leaf" \
    'rejected goal 0 node 1 N7 NoValue' 'device density=120' 'end absent 0x7f010000'
line certificate '{"version":1,"goals":[]}'
printf '%s\n' 'rejected goal 0 node 0 N1 GoalList' 'set-aside 0' >verdict.out
check "a certificate without goals" 1 verdict.out $none check layers box certificate 0x7f010000

# rejected NAME STATUS LINE: a check of these files ends with this status and this line on standard error.
rejected() {
    line rejected.err "$3"
    check "$1" "$2" $none rejected.err check layers box certificate 0x7f010000
}
line certificate '{"version":1,"goals":[{"id":"0x7f010000","nodes":[{"bag":5}]}]}'
rejected "a node that is none" 3 'refused: certificate: Shape 0 0'
line certificate '{"goals":[{"id":"0x7f010000","nodes":[{"bag":5}]}]}'
rejected "a certificate without a version" 3 'refused: certificate: Version'
line box '{"density":[160],"night":[]}'
rejected "a box comes before the certificate" 3 'refused: box: Empty night'
head -c 4 whole >cut
line layers '[{"table":"cut"}]'
rejected "a table comes before the box" 3 'refused: layer 0 table: Chunk Truncated 0'
rm certificate
rejected "an absent certificate comes before all that is rejected" 5 'file: certificate'
rm box
rejected "an absent box comes before the certificate" 5 'file: box'
line box-id.err 'command: bad id 0x7f01'
check "a bad id comes before the files" 2 $none box-id.err check absent box certificate 0x7f010000 0x7f01
line goal.err 'command: bad id 0x01010001@'
check "an attribute without styles comes before the files" 2 $none goal.err check absent box certificate 0x7f010000 0x01010001@
if command -v python3 >/dev/null; then
    ends "JSON Schemas" 0 "python3 '$here/tests/check_schemas.py' \"\$0\""
    ends "random and changed JSON texts" 0 "python3 '$here/tests/check_texts.py' \"\$0\" 300 4"
    ends "worked certificates" 0 "python3 '$here/tests/worked_certificates.py' \"\$0\" 4"
    ends "random certificates" 0 "python3 '$here/tests/check_certificates.py' \"\$0\" 400 4"
    ends "worked boxes and certificates by a phone's locales" 0 "python3 '$here/tests/worked_locales.py' \"\$0\" 4"
    ends "random certificates by a phone's locales" 0 "python3 '$here/tests/check_certificates.py' --locales android \"\$0\" 400 4"
else
    echo "not run, since python3 is missing: JSON Schemas, worked and random certificates"
fi

# ---- survey
line layers '[{"table":"whole"}]'
line box '{"density":[160]}'
check "a survey of a table without rows" 0 $none $none survey layers
check "a survey with a box" 0 $none $none survey layers box
line nowhere.err 'file: nowhere'
line nowhere-layers '[{"table":"nowhere"}]'
line cut-layers '[{"table":"cut"}]'
check "an absent table comes before an absent box" 5 $none nowhere.err survey nowhere-layers absent
line absent.err 'file: absent'
check "an absent box comes before a table that is cut" 5 $none absent.err survey cut-layers absent
line wrong-box '{"density":[160],"night":[]}'
line wrong-box.err 'refused: box: Empty night'
check "a survey with a wrong box" 3 $none wrong-box.err survey layers wrong-box
if command -v python3 >/dev/null; then
    ends "random surveys" 0 "python3 '$here/tests/check_survey.py' \"\$0\" 400 4"
    ends "random surveys by a phone's locales" 0 "python3 '$here/tests/check_survey.py' --locales android \"\$0\" 40 4"
else
    echo "not run, since python3 is missing: random surveys"
fi

# ---- show
line none.json '{"goals":[],"version":1}'
line none.out 'goals 0'
check "a certificate without goals" 0 none.out $none show layers none.json
line no-goal.out 'no goal 0'
check "a picture of a goal that is not there" 1 no-goal.out $none show --dot 0 layers none.json
check "an absent certificate" 5 $none absent.err show layers absent
line wrong.json '{"goals":[],"version":3}'
ends "a wrong certificate" 3 '"$0" show layers wrong.json'
if command -v python3 >/dev/null; then
    ends "random certificates for people" 0 "python3 '$here/tests/check_show.py' \"\$0\" 400 4"
else
    echo "not run, since python3 is missing: random certificates for people"
fi

# ---- make
line layers '[{"table":"whole"}]'
line box '{"density":{"from":120,"to":640}}'
printf '%s\n' 'counter goal 0' 'device density=120' 'end absent 0x7f010000' >counter.out
check "a device without a value" 1 counter.out $none make layers box 0x7f010000
check "the most nodes that a certificate may have" 1 counter.out $none make --max-nodes 1000000 layers box 0x7f010000
check "the limit after the ids" 1 counter.out $none make layers box 0x7f010000 --max-nodes 1
line limit.out 'node limit'
check "two ids, and one node" 1 limit.out $none make --max-nodes 1 layers box 0x7f010000 0x7f010000

# no_certificate NAME STATUS LINE WORD..: make with these words ends with this status and this line on standard error.
no_certificate() {
    name=$1 status=$2
    line made.err "$3"
    shift 3
    check "$name" "$status" $none made.err make "$@"
}
line emptied '{"density":[160],"night":[]}'
no_certificate "a wrong box" 3 'refused: box: Empty night' layers emptied 0x7f010000
head -c 4 whole >cut
no_certificate "a table comes before the box" 3 'refused: layer 0 table: Chunk Truncated 0' cut-layers emptied 0x7f010000
no_certificate "an absent box comes before all that is rejected" 5 'file: absent' cut-layers absent 0x7f010000
no_certificate "a bad id comes before the files" 2 'command: bad id 0x7f01' absent absent 0x7f010000 0x7f01
no_certificate "a malformed style comes before the files" 2 'command: bad id 0x01010001@0x7f010000,' absent absent 0x01010001@0x7f010000,
no_certificate "a limit of 0 comes before a bad id" 2 "error: invalid value '0' for '--max-nodes <N>': 0 is not in 1..=1000000

For more information, try '--help'." --max-nodes 0 layers box 0x7f01
ends "a limit that is too large" 2 '"$0" make --max-nodes 1000001 layers box 0x7f010000'
ends "a limit that is no number" 2 '"$0" make --max-nodes many layers box 0x7f010000'
ends "a limit without a number" 2 '"$0" make layers box 0x7f010000 --max-nodes'
ends "make without an id" 2 '"$0" make layers box'
ends "names asked for twice" 2 '"$0" make --names --names layers box 0x7f010000'
ends "names of a table" 2 '"$0" rows --names table'
ends "goals left out of a check" 2 '"$0" check --omit layers box certificate 0x7f010000'
if command -v python3 >/dev/null; then
    ends "random certificates that leave goals out" 0 "python3 '$here/tests/check_omitted.py' \"\$0\" 400 4"
    ends "random certificates that leave goals out, by a phone's locales" 0 "python3 '$here/tests/check_omitted.py' --locales android \"\$0\" 200 4"
else
    echo "not run, since python3 is missing: random certificates that leave goals out"
fi
ends "make to a closed output" 5 '"$0" make layers box 0x7f010000 >&-'

# What the guide keeps of an app: the certificate, its text, and the warnings of a survey.
release='examples/release/layers.json examples/release/phones.json @examples/release/goals.txt'
ends "the certificate of examples/release" 0 "cd '$here' && \"\$0\" make $release | cmp - examples/release/certificate.json"
ends "what its resources say" 0 "cd '$here' && \"\$0\" values --locales android ${release%% @*} | cmp - examples/release/values.golden"
ends "its text" 0 "cd '$here' && \"\$0\" show ${release%% *} examples/release/certificate.json | cmp - examples/release/certificate.txt"
ends "the warnings that it keeps" 0 "cd '$here' && \"\$0\" survey ${release%% @*} | grep ^warning | cmp - examples/release/warnings.txt"
ends "the map of a second overlay" 0 "cd '$here/examples' && \"\$0\" map teapot/resources.arsc copper/resources.arsc | cmp - copper/map.json"

if command -v python3 >/dev/null; then
    ends "worked certificates that are made" 0 "python3 '$here/tests/worked_made.py' \"\$0\" 4"
    ends "random certificates that are made" 0 "python3 '$here/tests/check_made.py' \"\$0\" 400 4"
    ends "random certificates that are made by a phone's locales" 0 "python3 '$here/tests/check_made.py' --locales android \"\$0\" 400 4"
else
    echo "not run, since python3 is missing: worked and random certificates that are made"
fi

# ---- diff
cp "$tables/rich.arsc" base
line old '[{"table":"base"}]'
line new '[{"table":"whole"}]'
line none.out 'same 0'
check "a change of nothing" 0 none.out $none diff new new box
line all.out 'set-aside 2 2'
echo "same $(awk '$1 == "row" { print $2 }' "$tables/rich.rows.txt" | sort -u | wc -l)" >>all.out
check "the same layers" 0 all.out $none diff old old box
check "the most nodes for a change" 0 none.out $none diff --max-nodes 1000000 new new box
check "the limit after the box" 0 none.out $none diff new new box --max-nodes 1

# no_diff NAME STATUS LINE WORD..: diff with these words ends with this status and this line on standard error.
no_diff() {
    name=$1 status=$2
    line diff.err "$3"
    shift 3
    check "$name" "$status" $none diff.err diff "$@"
}
line shapeless '{}'
line unmapped '[{"table":"whole"},{"table":"whole","map":"box"}]'
no_diff "an old list of wrong shape" 3 'refused: old layers: Shape' shapeless absent absent
no_diff "a new list of wrong shape" 3 'refused: new layers: Shape' new shapeless absent
no_diff "an old table that is cut comes first" 3 'refused: old layer 0 table: Chunk Truncated 0' cut-layers unmapped emptied
no_diff "a new map that is none comes before the box" 3 'refused: new layer 1 map: Shape' old unmapped emptied
no_diff "the wrong box of a change" 3 'refused: box: Empty night' old new emptied
no_diff "an absent old list" 5 'file: absent' absent shapeless nowhere
no_diff "an absent old table comes before the new list" 5 'file: nowhere' nowhere-layers shapeless absent
no_diff "an absent new list comes before the box" 5 'file: absent' cut-layers absent nowhere
no_diff "an absent new table comes before the box" 5 'file: nowhere' cut-layers nowhere-layers absent
no_diff "an absent box of a change comes before what is refused" 5 'file: absent' cut-layers unmapped absent
no_diff "an absent file of names comes before what is refused" 5 'file: nowhere' cut-layers unmapped emptied @nowhere
no_diff "what is refused comes before a name that is not there" 3 'refused: box: Empty night' old new emptied string/none
no_diff "a name that neither stack has" 1 'no resource string/none' old new box 'string/*' string/none
no_diff "a type that neither stack has" 1 'no resource none/*' old new box 'none/*' string/none
no_diff "an id that neither stack has" 1 'no resource 0x7f7f0000' old new box 0x7f7f0000
no_diff "all of two stacks that have nothing" 1 'no resource *' new new box '*'
no_diff "a bad name comes before the files" 2 'command: bad id string' absent absent absent 0x7f010000 string
no_diff "an attribute under styles is not compared" 2 'command: bad id attr/a@style/b' old new box attr/a@style/b
ends "diff without a box" 2 '"$0" diff old new'
ends "a change within 0 nodes" 2 '"$0" diff --max-nodes 0 old new box'
ends "a change within too many nodes" 2 '"$0" diff --max-nodes 1000001 old new box'
ends "two raw forms of a change" 2 '"$0" diff --raw --raw old new box'
ends "two limits of a change" 2 '"$0" diff --max-nodes 1 --max-nodes 1 old new box'
ends "names beside the ids of a change" 2 '"$0" diff --names old new box'
ends "two forms of JSON of a change" 2 '"$0" diff --json --json old new box'
line none.json '{"count":0,"line":"same"}'
check "a change of nothing, as JSON" 0 none.json $none diff --json new new box

# ---- values
line no-values.out 'resources 0'
check "the values of no layers" 0 no-values.out $none values new box
check "the limit of values after the box" 0 no-values.out $none values new box --max-nodes 1

# no_values NAME STATUS LINE WORD..: the same of values.
no_values() {
    name=$1 status=$2
    line values.err "$3"
    shift 3
    check "$name" "$status" $none values.err values "$@"
}
no_values "a list of values of wrong shape comes before the box" 3 'refused: layers: Shape' shapeless absent
no_values "an absent box of values comes before what is refused" 5 'file: absent' cut-layers absent
no_values "an absent file of names of values comes before what is refused" 5 'file: nowhere' cut-layers emptied @nowhere
no_values "a table of values that is cut comes before the box" 3 'refused: layer 0 table: Chunk Truncated 0' cut-layers emptied
no_values "the wrong box of values comes before a name that is not there" 3 'refused: box: Empty night' new emptied string/none
no_values "a name that the stack lacks" 1 'no resource string/none' old box 'string/*' string/none
no_values "a bad name of values comes before the files" 2 'command: bad id string' absent absent string
ends "values without a box" 2 '"$0" values new'
ends "values within 0 nodes" 2 '"$0" values --max-nodes 0 new box'
line no-values.json '{"count":0,"line":"resources"}'
check "the values of no layers, as JSON" 0 no-values.json $none values --json new box

# ---- unused
line no-rows.out 'rows 0 unused 0 overlaid 0 unmapped 0 bytes 0'
check "the unused rows of no layers" 0 no-rows.out $none unused new box
check "the limit of unused after the box" 0 no-rows.out $none unused new box --max-nodes 1
check "an id that no row stands for" 0 no-rows.out $none unused old box 0x7f7f0000

# no_unused NAME STATUS LINE WORD..: the same of unused.
no_unused() {
    name=$1 status=$2
    line unused.err "$3"
    shift 3
    check "$name" "$status" $none unused.err unused "$@"
}
no_unused "a list of unused rows of wrong shape comes before the box" 3 'refused: layers: Shape' shapeless absent
no_unused "an absent box of unused comes before what is refused" 5 'file: absent' cut-layers absent
no_unused "an absent file of names of unused comes before what is refused" 5 'file: nowhere' cut-layers emptied @nowhere
no_unused "a table of unused rows that is cut comes before the box" 3 'refused: layer 0 table: Chunk Truncated 0' cut-layers emptied
no_unused "the wrong box of unused comes before a name that is not there" 3 'refused: box: Empty night' new emptied string/none
no_unused "a name that no base has" 1 'no resource string/none' old box 'string/*' string/none
no_unused "a bad name of unused comes before the files" 2 'command: bad id string' absent absent string
ends "unused without a box" 2 '"$0" unused new'
ends "unused within 0 nodes" 2 '"$0" unused --max-nodes 0 new box'
ends "unused rows that are raw" 2 '"$0" unused --raw new box'

ends "diff to a closed output" 5 '"$0" diff new new box >&-'
ends "diff as JSON to a closed output" 5 '"$0" diff --json new new box >&-'

line plain '[{"table":"examples/teapot/resources.arsc"}]'
printf '%s\n' 'changed bool/whistles true -> false' \
    'changed color/clay rgb8 #ffb5651d -> argb8 #fff8f4ec on night=1' \
    'changed dimen/handle dimension 12/2^0 dp -> dimension 16/2^0 dp on density=120..197' \
    'changed string/brand "Teapot" -> "Porcelain teapot" on locale=en-GB,en-US' \
    'changed string/brand "Teekanne" -> "Porzellankanne" on locale=de-AT,de-CH,de-DE' \
    'changed string/title "Teapot" -> "Porcelain teapot" on locale=en-GB,en-US' \
    'changed string/title "Teekanne" -> "Porzellankanne" on locale=de-AT,de-CH,de-DE' 'set-aside 1 1' 'same 14' >changed.out
cd "$here" || exit 1
check "what the porcelain changes, raw" 1 "$work/changed.out" $none \
    diff --raw "$work/plain" examples/porcelain/layers.json examples/porcelain/phones.json
printf '%s\n' 'changed bool/whistles true -> false' \
    'changed color/clay #b5651d -> #fff8f4ec on notnight' \
    'changed dimen/handle 12dp -> 16dp on <198dpi' \
    'changed string/brand "Teapot" -> "Porcelain teapot" on en-rGB,en-rUS' \
    'changed string/brand "Teekanne" -> "Porzellankanne" on all but en-rGB,en-rUS' \
    'changed string/title "Teapot" -> "Porcelain teapot" on en-rGB,en-rUS' \
    'changed string/title "Teekanne" -> "Porzellankanne" on all but en-rGB,en-rUS' 'set-aside 1 1' 'same 14' >"$work/changed.out"
check "what the porcelain changes" 1 "$work/changed.out" $none \
    diff "$work/plain" examples/porcelain/layers.json examples/porcelain/phones.json
title='{"line":"changed","name":"string/title","says":'
printf '%s\n' '{"line":"changed","name":"dimen/handle","says":{"after":{"value":{"kind":5,"word":4097,"xml":"16dp"}},"before":{"value":{"kind":5,"word":3073,"xml":"12dp"}},"devices":{"density":{"from":120,"to":197}},"on":"<198dpi"}}' \
    "$title"'{"after":{"value":{"string":"Porcelain teapot","xml":"\"Porcelain teapot\""}},"before":{"value":{"string":"Teapot","xml":"\"Teapot\""}},"devices":{"locale":["en-GB","en-US"]},"on":"en-rGB,en-rUS"}}' \
    "$title"'{"after":{"value":{"string":"Porzellankanne","xml":"\"Porzellankanne\""}},"before":{"value":{"string":"Teekanne","xml":"\"Teekanne\""}},"devices":{"locale":["de-AT","de-CH","de-DE"]},"on":"all but en-rGB,en-rUS"}}' \
    '{"line":"set-aside","new":1,"old":1}' '{"count":0,"line":"same"}' >"$work/changed.json"
overlaid=examples/teapot.apk+examples/porcelain.apk
check "what the porcelain changes, as JSON" 1 "$work/changed.json" $none \
    diff --json examples/teapot.apk $overlaid examples/porcelain/phones.json dimen/handle string/title
printf '%s\n' '{"line":"value","name":"dimen/handle","says":{"content":{"value":{"kind":5,"word":3329,"xml":"13dp"}},"devices":{"density":{"from":198,"to":640}},"on":">=198dpi"}}' \
    '{"line":"value","name":"dimen/handle","says":{"content":{"value":{"kind":5,"word":4097,"xml":"16dp"}},"devices":{"density":{"from":120,"to":197}},"on":"<198dpi"}}' \
    '{"count":1,"line":"set-aside"}' '{"count":1,"line":"resources"}' >"$work/values.json"
check "what its handle says, as JSON" 0 "$work/values.json" $none values --json $overlaid examples/porcelain/phones.json dimen/handle
cd "$work" || exit 1
if command -v python3 >/dev/null; then
    ends "worked changes of an app" 0 "python3 '$here/tests/worked_diff.py' \"\$0\""
    ends "random changes of layers" 0 "python3 '$here/tests/check_diff.py' \"\$0\" 400 4"
    ends "random changes of layers by a phone's locales" 0 "python3 '$here/tests/check_diff.py' --locales android \"\$0\" 400 4"
    ends "what random layers say" 0 "python3 '$here/tests/check_diff.py' --values \"\$0\" 400 4"
    ends "what random layers say by a phone's locales" 0 "python3 '$here/tests/check_diff.py' --values --locales android \"\$0\" 400 4"
    ends "random changes and what layers say, as JSON" 0 "python3 '$here/tests/check_json.py' \"\$0\" 200 4"
    ends "the same as JSON by a phone's locales" 0 "python3 '$here/tests/check_json.py' --locales android \"\$0\" 200 4"
    ends "verdicts and bags as JSON" 0 "python3 '$here/tests/check_answer_json.py' \"\$0\" 100 4"
    ends "verdicts and bags as JSON by a phone's locales" 0 "python3 '$here/tests/check_answer_json.py' --locales android \"\$0\" 100 4"
    ends "which rows of random layers are unused" 0 "python3 '$here/tests/check_unused.py' \"\$0\" 400 4"
    ends "which are by a phone's locales" 0 "python3 '$here/tests/check_unused.py' --locales android \"\$0\" 400 4"
    ends "pages for reviewers" 0 "python3 '$here/tests/check_review.py' \"\$0\" 60 4"
    ends "pages for reviewers by a phone's locales" 0 "python3 '$here/tests/check_review.py' --locales android \"\$0\" 60 4"
    by_aapt=--aapt
    command -v aapt >/dev/null || { by_aapt='' && echo "not run, since aapt is missing: releases of an app as it builds them"; }
    ends "what twelve changes of an app move in what its resources say" 0 "python3 '$here/tests/worked_releases.py' \"\$0\" $by_aapt"
else
    echo "not run, since python3 is missing: worked and random changes of layers, pages for reviewers, releases of an app"
fi

# ---- README and the guide: what they show after a command is what it prints

# shows PAGE FOLDER [WORD]: the commands of this page of the folder, run there one after the other, with this word in place of
# ./restool. Those with jq need that.
shows() {
    rm -rf shown
    mkdir shown
    awk -v word="${3:-./restool}" '/^\$ / { name = sprintf("shown/%03d", ++n); gsub(/\.\/restool/, word)
            print substr($0, 3) >(name ".command"); printf "" >(name ".lines"); next }
        /^```/ { name = "" } name { print >(name ".lines") }' "$2/$1"
    for shown in shown/*.lines; do
        command=$(cat "${shown%.lines}.command")
        case $command in
        *'| jq '*) command -v jq >/dev/null || { echo "not run, since jq is missing: $command"; continue; } ;;
        esac
        (cd "$2" && sh -c "$command") >printed 2>&1
        ends "$1's output of '$command' in $2" 0 "awk -f '$here/tests/shown.awk' '$shown' printed >&2"
    done
}
shows README.md "$here"
shows docs/GUIDE.md "$here"

# A survey of newer features, beside a plain search for them. Each of these bytes of the example gives it one: the flags of
# its first type, its grammatical gender, the flags of its first entry.
if command -v python3 >/dev/null; then
    for byte in '853 \002' '883 \001' '946 \010'; do
        cp "$teapot/resources.arsc" newer
        printf "${byte#* }" | dd of=newer bs=1 seek="${byte% *}" conv=notrunc 2>/dev/null
        ends "newer features are found at ${byte% *}" 1 "python3 '$here/tests/newer_format.py' newer"
        line newer-layers '[{"table":"newer"}]'
        ends "a survey warns of them at ${byte% *}" 1 '"$0" survey newer-layers'
    done
    ends "what is no table has no newer features" 2 "python3 '$here/tests/newer_format.py' '$here/examples/porcelain/map.json'"
else
    echo "not run, since python3 is missing: a search for newer features"
fi

# ---- the package: unpacked into an empty folder, it needs neither the repository nor rt
mkdir -p bare/tools bare/crates/restool/out bare/crates/restool/src
cp "$here"/tools/*.sh bare/tools/
line old.err 'package.sh: no program is of these sources: ./restool proves and builds it'
ends "no package without a program" 0 '! sh bare/tools/package.sh 2>told && cmp told old.err'
cp "$program" bare/crates/restool/out/
touch -d '2 seconds' bare/crates/restool/src/main.rt
ends "no package of an old program" 0 '! sh bare/tools/package.sh 2>told && cmp told old.err'

ends "a package" 0 "sh '$here/tools/package.sh' first"
ends "a package that others may not read" 0 "umask 077; sh '$here/tools/package.sh' second"
package=$(basename first/*.tar.gz .tar.gz)
ends "the same bytes twice" 0 "cmp first/$package.tar.gz second/$package.tar.gz"
mkdir unpacked
tar -xzf "first/$package.tar.gz" -C unpacked
unpacked=$work/unpacked/$package
ends "checksums of the package" 0 "cd '$unpacked' && sha256sum -c --quiet SHA256SUMS"
ends "checksums of all its files" 0 "[ \$(find '$unpacked' -type f | wc -l) = \$((\$(wc -l <'$unpacked/SHA256SUMS') + 1)) ]"
if command -v dpkg >/dev/null && command -v python3 >/dev/null; then
    deb=$(basename first/*.deb)
    ends "the same .deb twice" 0 "cmp 'first/$deb' 'second/$deb'"
    mkdir -p installed/var/lib/dpkg/info installed/var/lib/dpkg/updates
    : >installed/var/lib/dpkg/status
    # (No library and no user stands there.)
    dpkg="dpkg --root='$work/installed' --log=/dev/null --force-depends --force-not-root --force-bad-path"
    ends "the .deb is installed" 0 "$dpkg --install 'first/$deb'"
    ends "its program" 0 "cmp installed/usr/bin/restool '$unpacked/restool'"
    ends "its pages" 0 "diff -r -x restool -x tools -x SHA256SUMS -x copyright '$unpacked' installed/usr/share/doc/restool"
    ends "what makes its pages for reviewers" 0 "cmp installed/usr/bin/restool-review '$unpacked/tools/review.py'"
    of_porcelain='examples/teapot.apk examples/teapot.apk+examples/porcelain.apk examples/porcelain/phones.json'
    ends "a page for reviewers" 0 "cd '$unpacked' && tools/review.py $of_porcelain >'$work/page'"
    ends "the page says what changes" 0 "grep -q '<code>dimen/handle</code>' page"
    ends "the same page by the .deb" 0 "cd '$unpacked' && PATH='$work/installed/usr/bin':\$PATH restool-review $of_porcelain | cmp - '$work/page'"
    ends "its manual has each command" 0 "gzip -cd installed/usr/share/man/man1/restool.1.gz >manual && for it in '$here'/tests/helps/*.txt; do it=\$(basename \$it .txt); [ \$it = restool ] || grep -qx \".SS \$it\" manual || exit 1; done"
    shares=$work/installed/usr/share
    if command -v bash >/dev/null; then
        ends "what bash completes" 0 "bash '$here/tests/completions.bash' $shares/bash-completion/completions/restool '$work/installed/usr/bin' >&2"
    fi
    if command -v zsh >/dev/null; then
        ends "what zsh completes" 0 "zsh -f '$here/tests/completions.zsh' $shares/zsh/vendor-completions/_restool '$work/installed/usr/bin' >&2"
    fi
    if command -v fish >/dev/null; then
        ends "what fish completes" 0 "fish --no-config '$here/tests/completions.fish' $shares/fish/vendor_completions.d/restool.fish '$work/installed/usr/bin' >&2"
    fi
    path=$PATH
    PATH=$work/installed/usr/bin:$PATH
    shows README.md "$shares/doc/restool" restool
    PATH=$path
    ends "the .deb is removed" 0 "$dpkg --purge restool && [ ! -e installed/usr ]"
else
    echo "not run, since dpkg or python3 is missing: the package for apt"
fi
path=$PATH
PATH=$(printf '%s\n' "$path" | tr : '\n' | while read -r it; do [ -x "$it/rt" ] || printf ':%s' "$it"; done)
PATH=${PATH#:}
ends "no toolchain" 0 '! command -v rt'
shows README.md "$unpacked"
fleet=$unpacked/examples/fleet
if command -v make >/dev/null; then
    shows README.md "$fleet"
    touch "$fleet/families/phones.json"
    printf '%s\n' 'cup/phones: accepted' 'kettle/phones: accepted' >steps
    ends "steps after a family is changed" 0 "make -s -j2 -C '$fleet' check | sed 's/ goals.*//' | sort | cmp - steps"
    ends "no steps where nothing is changed" 0 "[ -z \"\$(make -s -j2 -C '$fleet' check)\" ]"
else
    echo "not run, since make is missing: a fleet"
fi
PATH=$path

# ---- the pages: their links, the files that they name, and those that are made from the definitions; tables and rows of locales; planted bugs
if command -v python3 >/dev/null; then
    ends "links and files that pages name" 0 "python3 '$here/tests/check_pages.py' >&2"
    ends "DEFINITIONS.md and HEADLINE.md are up to date" 0 "python3 '$here/tools/definitions.py' --check"
    ends "the tables of locales are those of its lists" 0 "python3 '$here/tools/locale_tables.py' --check"
    ends "known rows of a phone's locales" 0 "python3 '$here/tests/plain_locales.py' >&2"
    ends "known texts of Android's notation" 0 "python3 '$here/tests/plain_notation.py' 1000 >&2"
    ends "known devices in Android's words" 0 "python3 '$here/tests/plain_devices.py' 1000 >&2"
    ends "planted bugs apply, and are few" 0 "python3 '$here/tests/planted_bugs.py' --apply >&2"
else
    echo "not run, since python3 is missing: links and files that pages name, DEFINITIONS.md, HEADLINE.md, tables and rows of locales, planted bugs"
fi

# ---- files and streams
line absent.err 'file: absent'
check "an absent file" 5 $none absent.err rows absent
check "an absent file to dump" 5 $none absent.err dump absent
mkdir folder
line folder.err 'file: folder'
check "a folder" 5 $none folder.err rows folder
printf 'file: \n' >empty.err
check "an empty path" 5 $none empty.err rows ''
truncate -s 268435457 large
line large.err 'file: large'
check "a file that is too large" 5 $none large.err rows large
if [ -w /dev/full ]; then
    ends "a full output" 5 "\"\$0\" rows '$tables/plain.arsc' >/dev/full"
    omitting="cd '$here' && \"\$0\" make --omit examples/porcelain/layers.json examples/porcelain/phones.json 0x7f050009 0x7f030000"
    ends "what is left out is told to a full stream" 5 "$omitting 2>/dev/full"
    ends "where it is not told nothing is printed" 0 "[ -z \"\$($omitting 2>/dev/full)\" ]"
    ends "a full output prints no line" 0 "[ -z \"\$(\"\$0\" rows '$tables/plain.arsc' 2>&1 >/dev/full)\" ]"
fi
ends "a closed output" 5 "\"\$0\" rows '$tables/plain.arsc' >&-"
ends "a closed output of dump" 5 "\"\$0\" dump '$tables/rich.arsc' >&-"
line memory.err 'out of memory'
truncate -s 200000000 wide
ends "no memory" 4 "ulimit -v 60000; exec \"\$0\" rows wide"

# The first bytes are taken, and no more.
ends "an output that fails on its way" 5 "trap '' XFSZ; ulimit -f 1; exec \"\$0\" rows '$tables/plain.arsc' >begun 2>told"
ends "an output that fails on its way prints no line" 0 "[ -s begun ] && [ ! -s told ]"

# ---- the least table: no strings and no package
cp "$here/crates/restool/stdin" whole
head -c 4 whole >cut
line no-rows.out 'rows 0 set-aside 0'
check "rows of a table without rows" 0 no-rows.out $none rows whole
check "dump of a table without packages" 0 $none $none dump whole
check "rows of four bytes" 3 $none short.err rows cut
check "dump of four bytes" 3 $none short.err dump cut
line layers '[{"table":"whole"}]'
line device '{"density":160}'
printf '%s\n' '0x7f010000 absent 0x7f010000' '0x7f010001 absent 0x7f010001' 'set-aside 0' >absent.out
check "ids that no table has, one in capital digits" 1 absent.out $none query layers device 0x7f010000 0x7F010001
printf '%s\n' 'lookup 0x7f010000' 'end absent 0x7f010000' >explained.out
check "an explanation of an id that no table has" 1 explained.out $none explain layers device 0x7f010000
check "a bag that no table has" 1 bagless.out $none bag layers device 0x7f010000
check "an attribute after a style that no table has" 1 bagless.out $none attr layers device --keep 0x01010000 0x7f010000

# ---- what comes first: bad ids, then the list of layers, then its files, then the device
line no-id.err 'command: bad id 0x'
check "a bad id comes before files" 2 $none no-id.err attr absent device 0x01010000 0x7f010000 0x
line no-id.err 'command: bad id 0x7f01'
check "a bad id to explain comes before files" 2 $none no-id.err explain absent device 0x7f01
line no-id.err 'command: bad id 7'
check "the first of two bad ids" 2 $none no-id.err query absent device 0x7f010000 7 0x7
line shape.err 'refused: layers: Shape'
check "a wrong list of layers comes before an absent device" 3 $none shape.err query device absent 0x7f010000
line far '[{"table":"whole","map":"nowhere"}]'
check "an absent id map comes before an absent device" 5 $none nowhere.err query far absent 0x7f010000

# ---- names, asked in the folder of the examples
cd "$here" || exit 1
layers=examples/porcelain/layers.json
phone=examples/porcelain/phone.json

# same NAME IDS WORDS..: a query of these words prints what one of these ids does.
same() {
    name=$1
    # shellcheck disable=SC2086 # the ids are words
    "$program" query $layers $phone $2 >"$work/by-id"
    status=$?
    shift 2
    check "$name" "$status" "$work/by-id" $none query $layers $phone "$@"
}
same "names in place of ids" "0x7f030000 0x7f050000" dimen/handle string/title
printf '%s\n' '# sizes' '' 'dimen/handle' ' string/title ' >"$work/words"
same "all of a type, and a file of words" "0x7f030000 0x7f030001 0x7f030002 0x7f030003 0x7f030000 0x7f050000" 'dimen/*' \
    "@$work/words"
printf '\357\273\277# sizes\r\n\r\ndimen/handle\r\n string/title' >"$work/words"
same "a byte order mark, and lines that end with CR LF" "0x7f030000 0x7f050000" "@$work/words"
ids=$("$program" rows examples/teapot/resources.arsc | sed -n 's/^row \(0x[0-9a-f]*\) .*/\1/p' | sort -u | tr '\n' ' ')
same "all resources" "$ids" '*'

# missing NAME WORDS..: these words end at the name, which is not there.
missing() {
    line missing.err "no resource $1"
    shift
    check "a name that is not there: $*" 1 $none "$work/missing.err" "$@"
}
missing dimen/hanlde query $layers $phone string/title dimen/hanlde string/nope
missing 'nothing/*' query $layers $phone 'nothing/*'
missing Dimen/handle explain $layers $phone Dimen/handle
missing style/None attr $layers $phone 0x01010000 0x7f030000 style/None
missing style/None make $layers examples/porcelain/phones.json dimen/handle 0x01010000@style/None
missing attr/none check $layers examples/porcelain/phones.json examples/porcelain/certificate.json attr/none@style/None
line word.err 'command: bad id @others'
printf '%s\n' 'dimen/handle' '@others' >"$work/words"
check "a file of words names no other" 2 $none "$work/word.err" query $layers $phone "@$work/words"
# A file forges no line: what it has with control characters stands between quotes.
line word.err 'command: bad id "0x7f\x1b[2Kaccepted"'
printf '0x7f\033[2Kaccepted\n' >"$work/forged"
check "a word of a file that would erase its line" 2 $none "$work/word.err" query $layers $phone "@$work/forged"
line missing.err 'no resource "string/a\x0dset-aside 0"'
printf 'string/a\rset-aside 0\n' >"$work/forged"
check "a name of a file that would hide its line" 1 $none "$work/missing.err" query $layers $phone "@$work/forged"
printf '[{"table":"no\\nwhere\\u001b"}]\n' >"$work/forged"
line file.err 'file: "no\x0awhere\x1b"'
check "a path of a list that would make two lines" 5 $none "$work/file.err" query "$work/forged" $phone dimen/handle
line file.err 'file: absent"\'
printf '[{"table":"absent\\"\\\\"}]\n' >"$work/forged"
check "a path of a list that makes one line stands as it is" 5 $none "$work/file.err" query "$work/forged" $phone dimen/handle
printf 'dimen/handle\n\377\n' >"$work/words"
line text.err 'command: a word is not UTF-8'
check "a file of words that is no text" 2 $none "$work/text.err" query $layers $phone "@$work/words"
line blank.err "command: no words in $work/blank"
printf '\357\273\277# sizes\r\n \n' >"$work/blank"
check "a file of words that has none" 2 $none "$work/blank.err" query $layers $phone "@$work/blank" "@$work/words" @absent
check "no certificate of no words" 2 $none "$work/blank.err" make $layers examples/porcelain/phones.json "@$work/blank"
check "no styles in a file" 2 $none "$work/blank.err" attr $layers $phone 0x01010000 "@$work/blank"
check "no change of no words" 2 $none "$work/blank.err" diff $layers $layers examples/porcelain/phones.json "@$work/blank"
check "the first file of words that is wrong" 2 $none "$work/text.err" query $layers $phone "@$work/words" "@$work/blank"
line file.err 'file: absent'
check "files come before the words in them" 5 $none "$work/file.err" query absent $phone "@$work/words"
check "an absent file of words" 5 $none "$work/file.err" query $layers $phone @absent
line word.err 'command: bad id @words'
check "one resource is not in a file" 2 $none "$work/word.err" explain absent $phone @words
for ids in @ @0x7f010000 @0x7f010000,0x7F010001; do
    line word.err "command: bad id $ids"
    check "ids alone name no file: $ids" 2 $none "$work/word.err" query absent $phone dimen/handle "$ids" 0x7f06
    check "nor in goals: $ids" 2 $none "$work/word.err" make absent examples/porcelain/phones.json "$ids"
done
line file.err 'file: 0x7f010000,'
check "ids and a comma name a file" 5 $none "$work/file.err" query $layers $phone @0x7f010000,
cd "$work" || exit 1

# ---- words
for command in rows dump map ids survey show query explain bag attr make check diff values unused device; do
    check "help of $command" 0 "$here/tests/helps/$command.txt" $none "$command" --help
done
check "help" 0 "$here/tests/helps/restool.txt" $none --help
line version.out 'restool 0.1.0'
check "the version" 0 version.out $none --version
printf '%s\n' "error: unrecognized subcommand 'xyz'" '' 'Usage: restool <COMMAND>' '' \
    "For more information, try '--help'." >nameless.err
check "no such command" 2 $none nameless.err xyz
printf '%s\n' 'error: the following required arguments were not provided:' '  <TABLE>' '' \
    'Usage: restool rows <TABLE>' '' "For more information, try '--help'." >tableless.err
check "rows without a table" 2 $none tableless.err rows
ends "dump without a table" 2 '"$0" dump'
ends "explain with two ids" 2 '"$0" explain layers device 0x7f010000 0x7f010001'
ends "explain of a word that is no id" 2 '"$0" explain layers device 0x7f'
ends "query without an id" 2 '"$0" query layers device'
ends "bag with two ids" 2 '"$0" bag layers device 0x7f010000 0x7f010001'
ends "check without an id" 2 '"$0" check layers box certificate'
ends "attr without a style" 2 '"$0" attr layers device 0x01010000'
line attr.err 'command: bad id 0x0101'
check "the attribute is the first word that is no id" 2 $none attr.err attr layers device 0x0101 style
line style.err 'command: bad id style'
check "a style that is no id" 2 $none style.err attr layers device --keep 0x01010000 0x7f010000 style
ends "dump of two tables" 2 '"$0" dump a b'
ends "map of one table" 2 '"$0" map a'
ends "map of three tables" 2 '"$0" map a b c'
ends "ids without layers" 2 '"$0" ids'
ends "ids of two lists of layers" 2 '"$0" ids layers layers'
ends "survey without layers" 2 '"$0" survey'
ends "survey with two boxes" 2 '"$0" survey layers box box'
ends "show without a certificate" 2 '"$0" show layers'
ends "show of two certificates" 2 '"$0" show layers certificate certificate'
ends "a raw certificate of a word" 2 '"$0" show --raw=yes layers certificate'
ends "a picture of no goal" 2 '"$0" show layers certificate --dot'
ends "a picture of a goal that is no number" 2 '"$0" show --dot first layers certificate'
ends "a picture of a goal below 0" 2 '"$0" show --dot=-1 layers certificate'
ends "a picture of a goal above all" 2 '"$0" show --dot 4294967296 layers certificate'
ends "too many words" 2 '"$0" rows a b'
ends "a word that is not UTF-8" 2 '"$0" rows "$(printf "\377")"'

# ---- what the compiler refuses
ends "a row of bytes that a function owns" 0 "sh '$here/tests/own_bytes.sh' >&2"

# ---- what proved a program stands beside it
mkdir -p one/tools one/crates/one/src
cp "$here"/tools/*.py "$here"/tools/*.sh one/tools/
echo 'one:' >one/crates.txt
printf '%s\n' '#![tactic(auto)]' '' 'fn main(_rt: HostRuntime) {}' >one/crates/one/src/main.rt
ends "a program is proved" 0 'python3 one/tools/prove.py one'
ends "what proved it, and of which sources" 0 \
    '{ rt version && sh one/tools/source_sum.sh one; } | cmp - one/crates/one/out/proved-with'

# ---- the prebuilt program
ends "which program ./restool runs" 0 "sh '$here/tests/prebuilt.sh' >&2"
ends "the prebuilt program, where it is of these sources" 0 "sh '$here/tests/same_prebuilt.sh' >told"
cat told

# ---- each way to stop
ends "each way to stop" 0 "sh '$here/tests/stops/stops.sh' \"\$0\" >&2"

echo "$passed passed, $failed failed"
[ "$failed" = 0 ]
