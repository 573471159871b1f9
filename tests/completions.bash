#!/bin/bash
# What bash completes of words of restool: completions.bash FILE FOLDER. FILE is what tools/completions.py prints, FOLDER has
# the program. Prints the rows that fail; the status is 1 then.
here=$(cd "$(dirname "$0")/.." && pwd) || exit 1
PATH=$2:$PATH
cd "$here/tests" || exit 1
failed=0

# Of bash-completion, what is called: the words so far, and what stands before a `:` taken away.
_get_comp_words_by_ref() { cword=$((${#words_so_far[@]} - 1)) words=("${words_so_far[@]}") cur=${words_so_far[-1]} prev=${words_so_far[-2]}; }
__ltrim_colon_completions() { :; }
compopt() { :; }
. "$1"

# row WANTED WORD..: to these words, the last of which is begun, belong these.
row() {
    wanted=$1
    shift
    words_so_far=(restool "$@")
    _restool
    [ "${COMPREPLY[*]}" = "$wanted" ] && return
    failed=1
    echo "failed: $* (${COMPREPLY[*]})"
}
row "dump diff device" d
row "--locales --raw --json --max-nodes --help" diff --
row "android" query --locales a
row "" diff --max-nodes ''
row "dimen/" query tables/rich.arsc device d
row "fraction/ratio fraction/of_parent" query tables/rich.arsc device fraction/
row "attr/mode" attr --keep --locales android tables/rich.arsc device attr/mo
row "style/Card style/Card.Empty" attr tables/rich.arsc device attr/mode style/Ca
row "tables/plain.arsc,tables/dense.arsc" survey tables/plain.arsc,tables/dense
row "tables/overlay.arsc" map tables/rich.arsc tables/overlay.
row "" nothing ''
exit $failed
