#!/bin/sh
# Times how a table is opened, by a query of an id that it does not have.
#
# First on the table of Android's framework, beside a C program that reads the same file and walks once over its
# words. Then on tables whose entries share bags, or have bags that overlap: ten times the entries and ten times
# the rows are to take ten times as long. Each time is the least of ten runs.
#
# Needs GNU time (Debian's package time), python3 and a C compiler, cc. The framework's table is got as query.sh
# gets it.
#
# Status 0: all was measured. 1: a command failed. 2: the framework's table is not to be had; the rest is
# measured all the same.
. "$(dirname "$0")/common.sh"
cd "$work" || exit 1
status=0
echo '{"density":320}' >device

# absent TABLE: the words of a query of an id that the table does not have.
absent() {
    printf '[{"table":"%s"}]' "$1" >"$1.layers"
    echo "$program query $1.layers device 0x02010000"
}

# ---- the framework's table

if framework; then
    cc -O2 -o count_words "$here/count_words.c" || exit 1
    query=$(absent framework.arsc)
    python3 "$here/least.py" 10 "./count_words framework.arsc" "$query" >times || exit 1
    echo "the framework's table, $(wc -c <framework.arsc) bytes (reading the file is in both times):"
    awk -v input="$(wc -c <framework.arsc)" '
        NR == 1 { walk = $1; printf "  one walk over its words in C   %7.2f ms\n", $1 }
        NR == 2 { printf "  a query of an absent id        %7.2f ms, %.2f of that; peak %.2f MB above the input\n", $1, $1 / walk, ($2 - input) / 1e6 }' times
else
    echo "open.sh: the framework's table is not to be had" >&2
    status=2
fi

# ---- bags that are shared, and bags that overlap

echo
printf '%-9s %9s %9s %12s %10s %14s\n' bags entries rows bytes ms 'ns a byte'
for shape in shared overlap turns; do
    for size in '6553 10000' '65536 100000' '655360 1000000'; do
        set -- $size
        python3 "$here/make_shared_bags.py" "$shape" "$1" "$2" table.arsc || exit 1
        python3 "$here/least.py" 10 "$(absent table.arsc)" >times || exit 1
        read -r ms peak <times
        echo "$ms $(wc -c <table.arsc)" | awk -v shape="$shape" -v entries="$1" -v rows="$2" \
            '{ printf "%-9s %9s %9s %12s %10.2f %14.2f\n", shape, entries, rows, $2, $1, $1 * 1e6 / $2 }'
    done
done
exit $status
