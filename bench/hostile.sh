#!/bin/sh
# Times commands on small tables and files of words that may cost much, each at three sizes, and prints the rows of a table of
# docs/PERFORMANCE.md: `hostile.sh [PROGRAM]`, of the program that was built here unless another is named. A run may take 60 s
# and 6 GB of address space; `over` stands where it takes longer, and `out of memory` where it wants more.
#
# Needs GNU time (Debian's package time) and python3.
program=$1
. "$(dirname "$0")/common.sh"
cd "$work" || exit 1

# listed WORDS: with commas between them.
listed() { echo "$*" | sed 's/ /, /g'; }

# measured COMMAND..: appends the time and the memory of a run to $times and $peaks.
measured() {
    (ulimit -v 6291456 && exec /usr/bin/time -q -f '%e %M' -o time timeout 60 "$program" "$@" >printed 2>told)
    status=$?
    read -r time peak <<END_OF_TIME
$(tail -n 1 time)
END_OF_TIME
    case $status in
    0 | 1 | 3) ;;
    124) time=over ;;
    4) time=out_of_memory ;;
    *) echo "hostile.sh: status $status: $1 ..: $(head -n 1 told)" >&2 && exit 1 ;;
    esac
    times="$times $time" peaks="$peaks $(awk -v peak="$peak" 'BEGIN { printf peak < 10240 ? "%.1f" : "%.0f", peak / 1024 }')"
}

# at_sizes WHAT SHAPE SIZES FILE COMMAND..: a row of the table, with the sizes of FILE.
at_sizes() {
    what=$1 shape=$2 sizes=$3 file=$4 times='' peaks='' bytes=''
    shift 4
    for n in $sizes; do
        python3 "$here/make_hostile.py" "$shape" "$n" . || exit 1
        bytes="$bytes $(($(wc -c <"$file") / 1000))"
        measured "$@"
    done
    echo "| $what | $(listed $bytes) | $(listed $times) | $(listed $peaks) |" | sed 's/_/ /g'
}

echo '| what | size, KB | time, s | peak of memory, MB |'
echo '|---|---|---|---|'
at_sizes '`diff`: n resources are one bag of n rows, of which one changes' shared-bag '1350 2700 5400' new.arsc diff old new box
at_sizes '`diff`: n styles below one of n attributes, of which one changes' themed '1550 3100 6200' new.arsc diff old new box
at_sizes '`diff`: 2^11, 2^12, 2^13 leaves of one bag of 400 rows, of which one changes' leaves '11 12 13' new.arsc diff old new box
at_sizes '`diff`: a resource with n rows and n names' many-names '1000 2000 4000' new.arsc diff old new box
at_sizes '`diff`: a resource with a row for each of n versions; all change' by-sdk '500 1000 2000' new.arsc diff old new box
at_sizes '`make` of it' by-sdk '500 1000 2000' new.arsc make old box '*'
at_sizes '`make` of it with one row for the night beside the others' by-sdk-and-night '500 1000 2000' new.arsc make old box '*'
at_sizes '`survey`: two thirds of n resources are one bag of n rows' wide-bag '25000 50000 100000' new.arsc survey old
at_sizes '`map` of it' wide-bag '25000 50000 100000' new.arsc map old.arsc new.arsc
at_sizes '`map`: bags of 4,000 resources share n rows' heads '25000 50000 100000' new.arsc map old.arsc new.arsc
at_sizes '`make`: a file of words that says `*` over and over, for 100 resources' stars '131072 262144 524288' words make old box @words
"$program" make old box '*' >certificate || exit 1
at_sizes '`check` of a certificate for one `*`, with the same file' stars '131072 262144 524288' words check old box certificate @words
at_sizes '`make`: the same before a table that is refused' refused-stars '65536 131072 524288' words make old box @words
at_sizes '`make`: a file of names before such a table' refused-names '65536 131072 262144' words make old box @words
