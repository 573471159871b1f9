#!/usr/bin/env fish
# What fish completes of words of restool: completions.fish FILE FOLDER. FILE is what tools/completions.py prints, FOLDER has the
# program. Prints the rows that fail; the status is 1 then.
set here (path dirname (status filename))
set -p PATH (path resolve $argv[2])
source $argv[1]; and cd $here; or exit 1
set failed 0

# row LINE WANTED..: to the last word of this line, which is begun, belong these.
function row
    set told (complete -C "restool $argv[1]" | string replace -r '\t.*' '')
    test "$told" = "$argv[2..]"; and return
    set -g failed 1
    echo "failed: $argv[1] ($told)"
end
row d device diff dump
row "diff --" --help --json --locales --max-nodes --raw
row "query --locales a" android
row "diff --max-nodes "
row "query tables/rich.arsc device d" dimen/
row "query tables/rich.arsc device fraction/" fraction/of_parent fraction/ratio
row "attr --keep --locales android tables/rich.arsc device attr/mo" attr/mode
row "attr tables/rich.arsc device attr/mode style/Ca" style/Card style/Card.Empty
row "survey tables/plain.arsc,tables/dense" tables/plain.arsc,tables/dense.arsc
row "map tables/rich.arsc tables/overlay." tables/overlay.arsc
row "nothing "
exit $failed
