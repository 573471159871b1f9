#!/bin/sh
# Runs the program PROGRAM where it has to stop: at its limits, files, ids, words and streams, and where it is
# refused memory, files and bytes on their way.
#   stops.sh PROGRAM
# The last line is 'N passed, M failed'.
here=$(CDPATH='' cd "$(dirname "$0")/../.." && pwd) || exit 1
program=$(realpath "$1") || exit 1
work=$(mktemp -d) || exit 1
trap 'rm -rf "$work"' EXIT
passed=0
failed=0
input=/dev/null

# judge NAME STATUS GOT: a run that ended with GOT has to end with STATUS; $work/out and $work/err are what it wrote,
# $work/out.wanted and $work/err.wanted what it has to write.
judge() {
    if [ "$3" = "$2" ] && cmp -s "$work/out" "$work/out.wanted" && cmp -s "$work/err" "$work/err.wanted"; then
        passed=$((passed + 1))
    else
        failed=$((failed + 1))
        echo "failed: $1 (status $3, wanted $2)"
        head -c 300 "$work/out" "$work/err"
        echo
    fi
}

# stops NAME STATUS LINE WORDS..: the program on these words, with standard input from $input, ends with this status,
# and writes nothing but this line to standard error.
stops() {
    name=$1 status=$2
    : >"$work/out.wanted"
    printf '%s\n' "$3" >"$work/err.wanted"
    shift 3
    "$program" "$@" <"$input" >"$work/out" 2>"$work/err"
    judge "$name" "$status" $?
}

# prints NAME STATUS TEXT WORDS..: it ends with this status, and writes nothing but this text to standard output.
prints() {
    name=$1 status=$2
    printf '%s\n' "$3" >"$work/out.wanted"
    : >"$work/err.wanted"
    shift 3
    "$program" "$@" <"$input" >"$work/out" 2>"$work/err"
    judge "$name" "$status" $?
}

# shell NAME STATUS LINE COMMAND: the command, run by sh with the program as its $0, ends with this status, and writes
# nothing but this line to standard error; if the word is empty, nothing at all.
shell() {
    : >"$work/out.wanted"
    printf '%s' "${3:+$3
}" >"$work/err.wanted"
    sh -c "$4" "$program" <"$input" >"$work/out" 2>"$work/err"
    judge "$1" "$2" $?
}

# tool NAME WHAT: whether a tool is there. Where it is not, what needs it fails.
tool() {
    command -v "$1" >/dev/null && return
    failed=$((failed + 1))
    echo "failed: not tried without $1: $2"
    return 1
}

line() { printf '%s\n' "$2" >"$work/$1"; }
cd "$work" || exit 1
cp "$here/crates/restool/stdin" whole
line layers '[{"table":"whole"}]'
line device '{"density":160}'
line box '{"density":[160]}'
line certificate '{"version":1,"goals":[]}'
id=0x7f010000
rows='rows 0 set-aside 0'
absent="$id absent $id
set-aside 0"
rejected='rejected goal 0 node 0 N1 GoalList
set-aside 0'

# asks LAYERS DEVICE BOX NAME STATUS LINE: each command that reads such files stops like this. An empty word for the
# device or the box leaves out the commands that read one. The certificate is there.
asks() {
    of_layers=$1 of_device=$2 of_box=$3
    shift 3
    if [ "$of_device" ]; then
        stops "query: $1" "$2" "$3" query "$of_layers" "$of_device" $id
        stops "explain: $1" "$2" "$3" explain "$of_layers" "$of_device" $id
        stops "bag: $1" "$2" "$3" bag "$of_layers" "$of_device" $id
        stops "attr: $1" "$2" "$3" attr "$of_layers" "$of_device" 0x01010000 $id
    fi
    if [ "$of_box" ]; then
        stops "make: $1" "$2" "$3" make "$of_layers" "$of_box" $id
        stops "check: $1" "$2" "$3" check "$of_layers" "$of_box" certificate $id
    fi
}

# ---- the size of an input: at most 268,435,456 bytes
cp whole most
truncate -s 268435456 most
prints "the largest file" 0 "$rows" rows most
stops "the largest device" 3 'refused: device: Syntax' query layers most $id
input=most
prints "the largest input" 0 "$rows" rows -
cp whole large
truncate -s 268435457 large
input=large
stops "an input that is too large" 5 'file: -' rows -
stops "an input that is too large, without words" 5 'file: -'
input=/dev/null
stops "a table that is too large to dump" 5 'file: large' dump large
stops "a list of layers that is too large" 5 'file: large' query large device $id
stops "a device that is too large" 5 'file: large' query layers large $id
stops "a box that is too large" 5 'file: large' check layers large certificate $id
stops "a certificate that is too large" 5 'file: large' check layers box large $id
line of-large '[{"table":"large"}]'
stops "a layer's table that is too large" 5 'file: large' query of-large device $id
line of-large '[{"table":"whole","map":"large"}]'
stops "a layer's map that is too large" 5 'file: large' query of-large device $id
stops "a file without an end" 5 'file: /dev/zero' rows /dev/zero
rm most large

# ---- '-' is standard input as TABLE alone
line of-table '[{"table":"-"}]'
line of-map '[{"table":"whole","map":"-"}]'
input=layers
asks - device box "no list of layers named -" 5 'file: -'
stops "ids: no list of layers named -" 5 'file: -' ids -
input=device
asks layers - '' "no device named -" 5 'file: -'
input=box
asks layers '' - "no box named -" 5 'file: -'
input=certificate
stops "no certificate named -" 5 'file: -' check layers box - $id
input=whole
asks of-table device box "no layer's table named -" 5 'file: -'
printf '[]' >no-pairs
input=no-pairs
asks of-map device box "no layer's map named -" 5 'file: -'
input=/dev/null
cp layers ./-
prints "a list of layers named -" 1 "$absent" query - device $id
cp device ./-
prints "a device named -" 1 "$absent" query layers - $id
cp box ./-
prints "a box named -" 1 "$rejected" check layers - certificate $id
cp certificate ./-
prints "a certificate named -" 1 "$rejected" check layers box - $id
cp whole ./-
prints "a layer's table named -" 1 "$absent" query of-table device $id
cp no-pairs ./-
prints "a layer's map named -" 1 "$absent" query of-map device $id
input=whole
prints "standard input beside a file named -" 0 "$rows" rows -
prints "standard input, without words, beside a file named -" 0 "$rows"
input=/dev/null
cp whole ./-
prints "a table named -" 0 "$rows" rows ./-
rm ./-

# ---- files without a byte
: >empty
asks empty device box "an empty list of layers" 3 'refused: layers: Syntax'
asks layers empty '' "an empty device" 3 'refused: device: Syntax'
asks layers '' empty "an empty box" 3 'refused: box: Syntax'
stops "an empty certificate" 3 'refused: certificate: Syntax' check layers box empty $id
line of-empty '[{"table":"whole"},{"table":"whole","map":"empty"}]'
asks of-empty device box "an empty map" 3 'refused: layer 1 map: Syntax'
line of-empty '[{"table":"whole"},{"table":"empty"}]'
asks of-empty device box "an empty table" 3 'refused: layer 1 table: Chunk Truncated 0'

# ---- the order of files, and of what is in them
line of-absent '[{"table":"no-table","map":"no-map"}]'
asks of-absent no-device no-box "a layer without its table and its map" 5 'file: no-table'
line of-absent '[{"table":"whole","map":"no-map"},{"table":"no-table"}]'
asks of-absent no-device no-box "a layer without its map" 5 'file: no-map'
line of-absent '[{"table":"whole"},{"table":"no-table"}]'
asks of-absent no-device no-box "a later layer without its table" 5 'file: no-table'
asks no-layers no-device no-box "no list of layers" 5 'file: no-layers'
asks layers no-device '' "no device" 5 'file: no-device'
asks layers '' no-box "no box" 5 'file: no-box'
stops "no certificate" 5 'file: no-certificate' check layers box no-certificate $id
head -c 4 whole >cut
line of-cut '[{"table":"cut"}]'
asks of-cut no-device no-device "a file comes before what is in a table" 5 'file: no-device'
line of-order '[{"table":"cut","map":"no-map"}]'
stops "ids: a file comes before what is in a table" 5 'file: no-map' ids of-order
line not-a-box '{"density":[]}'
stops "a file comes before what is in a box" 5 'file: no-certificate' check layers not-a-box no-certificate $id

# ---- ids: each word in its place
id2=0x7f010001
prints "ids in their order, one of them twice" 1 "$id2 absent $id2
$id absent $id
$id2 absent $id2
set-aside 0" query layers device $id2 $id $id2

# goals NAME LINE CERTIFICATE-IDS ID..: a check of these ids, with a certificate of those, is rejected with this line.
goals() {
    name=$1 rejected="$2
set-aside 0"
    line of-goals "{\"version\":1,\"goals\":[$(printf '{"id":"%s","nodes":[]},' $3 | sed 's/,$//')]}"
    shift 3
    prints "$name" 1 "$rejected" check layers box of-goals "$@"
}
goals "a goal twice, asked once" 'rejected goal 1 node 0 N1 GoalList' "$id $id" $id
goals "a goal once, asked twice" 'rejected goal 1 node 0 N1 GoalList' "$id" $id $id
goals "a goal twice, asked twice" 'rejected goal 0 node 0 N2 EndsEarly' "$id $id" $id $id
goals "goals in another order" 'rejected goal 0 node 0 N1 GoalList' "$id $id2" $id2 $id
goals "another goal between" 'rejected goal 1 node 0 N1 GoalList' "$id $id2 $id" $id $id $id2

prints "the first goal without a value" 1 "counter goal 0
device density=160
end absent $id2" make layers box $id2 $id $id2

cd "$here/tests/tables" || exit 1
attribute=0x7f010000
first=0x7f0c0000 second=0x7f0c0001
of_first="$attribute value layer 0 argb8 #ff0277bd" of_second="$attribute value layer 0 argb8 #ff000000"
french='rich.layers.json phone-fr.device.json'
prints "styles in another order" 0 "$of_first" attr $french $attribute $second $first
prints "a style twice" 0 "$of_first" attr $french $attribute $first $second $first
prints "styles in another order, kept" 0 "$of_second" attr --keep $french $attribute $second $second $first
prints "--keep after the words" 0 "$of_first" attr $french $attribute $first $second --keep
cd "$here" || exit 1
porcelain='examples/porcelain/layers.json examples/porcelain/phone.json'
prints "the first faulty style is absent" 1 'no bag Absent' attr $porcelain $attribute 0x7f050009 0x7f050000
prints "the first faulty style is plain" 1 'no bag Plain' attr $porcelain $attribute 0x7f050000 0x7f050009
cd "$work" || exit 1

for command in query bag; do
    stops "$command: a bad id comes before files" 2 'command: bad id 0x7f01000g' $command no-layers no-device 0x7f01000g
done
stops "no word is no id" 2 'command: bad id ' query layers device ''
stops "- is no id" 2 'command: bad id -' query layers device $id -
stops "a bad id before two others" 2 'command: bad id 1' query no-layers no-device $id 1 2 1
stops "a bad goal" 2 'command: bad id 1' check no-layers no-box no-certificate $id 1 2
stops "a bad goal of a certificate to be made" 2 'command: bad id 1' make no-layers no-box $id 1 2
stops "a bad attribute before a bad style" 2 'command: bad id 1' attr no-layers no-device 1 2

# ---- words
usage="For more information, try '--help'."
stops "--keep twice" 2 "error: the argument '--keep' cannot be used multiple times

Usage: restool attr [OPTIONS] <LAYERS> <DEVICE> <ATTR> <STYLE>...

$usage" attr --keep --keep layers device 0x01010000 $id
stops "--max-nodes twice" 2 "error: the argument '--max-nodes <N>' cannot be used multiple times

Usage: restool make [OPTIONS] <LAYERS> <BOX> <GOAL>...

$usage" make --max-nodes 1 --max-nodes 1 layers box $id
for number in 1000001 4294967296; do
    stops "--max-nodes $number" 2 "error: invalid value '$number' for '--max-nodes <N>': $number is not in 1..=1000000

$usage" make --max-nodes $number layers box 7
done
stops "--max-nodes is no number" 2 "error: invalid value '1x' for '--max-nodes <N>': invalid digit found in string

$usage" make --max-nodes 1x layers box 7
no_command="error: unrecognized subcommand ''

Usage: restool <COMMAND>

$usage"
stops "an empty word" 2 "$no_command" ''
stops "an empty word before a command" 2 "$no_command" '' rows whole
stops "an empty path of a table" 5 'file: ' dump ''
stops "an empty path of a list of layers" 5 'file: ' query '' device $id
stops "an empty path of a device" 5 'file: ' query layers '' $id
stops "an empty path of a box" 5 'file: ' check layers '' certificate $id
stops "an empty path of a certificate" 5 'file: ' check layers box '' $id
line of-nowhere '[{"table":""}]'
stops "an empty path of a layer's table" 5 'file: ' query of-nowhere device $id
line of-nowhere '[{"table":"whole","map":""}]'
stops "an empty path of a layer's map" 5 'file: ' query of-nowhere device $id
odd=$(printf '\377')
not_text='command: a word is not UTF-8'
stops "a word that is not UTF-8" 2 "$not_text" "$odd"
stops "a path that is not UTF-8" 2 "$not_text" rows "$odd"
stops "an id that is not UTF-8" 2 "$not_text" query layers device $id "$odd"
stops "a word that is not UTF-8 after --help" 2 "$not_text" --help "$odd"
stops "a word that is not UTF-8 after a bad one" 2 "$not_text" tables "$odd"

# ---- standard input
mkdir folder
shell "a folder as standard input" 5 'file: -' '"$0" rows - <folder'
shell "a folder as standard input, without words" 5 'file: -' '"$0" <folder'
shell "a closed standard input" 5 'file: -' '"$0" dump - <&-'
shell "a closed standard input, without words" 5 'file: -' '"$0" <&-'
shell "a standard input that can only be written" 5 'file: -' '"$0" rows - 0>written'
shell "an empty standard input" 3 'refused: table: Chunk Truncated 0' '"$0"'
stops "a folder as a list of layers" 5 'file: folder' query folder device $id
stops "a folder as a device" 5 'file: folder' query layers folder $id
line of-folder '[{"table":"folder"}]'
stops "a folder as a layer's table" 5 'file: folder' query of-folder device $id
line of-folder '[{"table":"whole","map":"folder"}]'
stops "a folder as a layer's map" 5 'file: folder' query of-folder device $id
shell "a closed standard input that is not needed" 0 '' '[ "$("$0" rows whole <&-)" = "rows 0 set-aside 0" ]'

# ---- streams that take nothing: of an answer status 5, and of a message its own status
# unwritten NAME TO: answers that cannot be written, and messages.
unwritten() {
    for words in --help --version 'rows --help' 'check --help' 'query layers device 0x7f010000' \
        'explain layers device 0x7f010000' 'bag layers device 0x7f010000' \
        'attr layers device 0x01010000 0x7f010000' 'make layers box 0x7f010000' \
        'check layers box certificate 0x7f010000'; do
        shell "$1: $words" 5 '' "\"\$0\" $words >$2"
    done
    for stop in '2 tables' '2 rows' '2 query layers device 7' '3 rows cut' '3 check layers not-a-box certificate 0x7f010000' \
        '5 rows absent' '5 query of-absent device 0x7f010000'; do
        shell "$1: ${stop#* }" "${stop%% *}" '' "\"\$0\" ${stop#* } 2>$2"
    done
    shell "$1: a word that is not UTF-8" 2 '' "\"\$0\" rows \"\$(printf '\\377')\" 2>$2"
}
if [ -w /dev/full ]; then unwritten "a full stream" /dev/full; fi
unwritten "a closed stream" '&-'

# ---- work of more than a second
# An id in which each pair of a locale and an mnc has a trace of its own, so many of each and so many times that a terminal
# shows two lines of the work; more on a fast machine. Behind them an id without a value, or before them a thousand that are
# left out. With standard error in a file nothing is written there, however long the work: the last is as much as the limit
# of 1,000,000 nodes lets one run do.
if tool python3 "work of more than a second"; then
    line pairs-layers '[{"table":"table.arsc"}]'
    # works COUNT GOALS: writes the table and its box, and makes $make the words of this work, and $omit those of it behind
    # goals that are left out.
    works() {
        goals=$2
        python3 "$here/bench/make_list.py" "$1" table.arsc pairs locale mnc
        of_pairs='--max-nodes 1000000 pairs-layers pairs'
        worked=$(yes 0x7f010000 | head -n "$2" | tr '\n' ' ')
        make="make $of_pairs $worked"
        omit="make --omit $of_pairs $(yes 0x7f010001 | head -n 1000 | tr '\n' ' ') $worked"
    }
    on_terminal="python3 '$here/tests/on_terminal.py'"
    for work_of in "60 30" "60 130" "200 12"; do
        works $work_of
        python3 "$here/tests/on_terminal.py" "$program" $make 0x7f010001 >terminal 2>soon
        [ "$(grep -c "^[0-9]* of $((goals + 1)) goals done" terminal)" -gt 1 ] && break
    done
    shell "a line of the work on a terminal" 0 '' "grep -q '^[0-9]* of $((goals + 1)) goals done' terminal"
    shell "no line of the work too soon" 0 '' 'cat soon >&2'
    erased=$(printf '\033\\[K')
    shell "a line that is taken away before a counterexample" 0 '' "tail -n 1 terminal | grep -q '^${erased}hint: --omit '"
    shell "no line of the work in a file where the output is on a terminal" 1 '' "$on_terminal --output \"\$0\" $make 0x7f010001 >made"
    python3 "$here/tests/on_terminal.py" "$program" $omit | grep ' goals done' >terminal
    shell "a line of the work that leaves goals out" 0 '' '[ -s terminal ]'
    shell "goals that are left out are done" 0 '' "! grep -v '^1[0-9][0-9][0-9] of $((goals + 1000)) goals done' terminal >&2"
    # told NAME OPTION LINE: a terminal shows behind the line of the work what standard error gets in a file, this line first.
    told() {
        words="make $2 $of_pairs $worked 0x7f010001"
        python3 "$here/tests/on_terminal.py" "$program" $words >terminal 2>soon
        "$program" $words >made 2>told
        sed "/^[0-9]* of [0-9]* goals done\$/d; s/^$erased//; /^hint: /d" terminal >behind
        shell "$1" 0 '' "head -n 1 told | grep -qx '$3' && cmp told behind"
    }
    told "a goal that is told behind the line of the work" --names "goal $goals 0x7f010001"
    told "what is left out, told behind the line of the work" --omit "omitted goal $goals 0x7f010001"
    works 200 12
    shell "no line of the work in a file" 0 '' "\"\$0\" $make >made"
    # The first of two goals takes more than a second.
    for count in 300 400 500; do
        works $count 1
        python3 "$here/tests/on_terminal.py" "$program" $make 0x7f010001 >terminal 2>soon
        grep -q ' of 2 goals done' terminal && break
    done
    shell "one of two goals is done" 0 '' "grep -qx '1 of 2 goals done' terminal"
fi

# counts SCRIPT WORD..: counts what passed and failed in a script.
counts() {
    script=$1
    shift
    python3 "$here/tests/stops/$script" "$@" >counted
    tail -n 1 counted | grep -q ' failed$' || echo '0 passed, 1 failed' >>counted
    sed '$d' counted
    passed=$((passed + $(tail -n 1 counted | sed -n 's/^\([0-9]*\) passed, .*/\1/p')))
    failed=$((failed + $(tail -n 1 counted | sed -n 's/.* passed, \([0-9]*\) failed$/\1/p')))
}

# ---- large changes
if tool python3 "large changes"; then counts changes.py "$program"; fi

# ---- memory, files and bytes that are refused

# calls_are_built: whether the program of calls is built of the sources that are there. Where they are newer, it is proved.
calls_are_built() {
    if [ -x "$calls" ] && [ -z "$(find "$here/crates" -name out -prune -o -name '*.rt' -newer "$calls" -print)" ]; then return; fi
    python3 "$here/tools/prove.py" test_calls >proof 2>&1 && touch "$calls" && return
    failed=$((failed + 1))
    echo "failed: test_calls is not proved: $(tail -n 1 proof)"
    return 1
}

if tool python3 "refused memory, files and bytes" && tool cc "refused memory, files and bytes"; then
    cc -shared -fPIC -O2 -o refuse.so "$here/tests/stops/refuse.c" || exit 1
    counts refusals.py "$program" ./refuse.so
    calls=$here/crates/test_calls/out/test_calls
    if calls_are_built; then
        counts calls.py ./refuse.so
    fi
fi

echo "$passed passed, $failed failed"
[ "$failed" = 0 ]
