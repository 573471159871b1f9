#!/usr/bin/env zsh
# What zsh completes of words of restool, to which all belongs that matches: completions.zsh FILE FOLDER. FILE is what
# tools/completions.py prints, FOLDER has the program. Prints the rows that fail; the status is 1 then.
here=${0:A:h} program=${2:A}
work=$(mktemp -d) || exit 1
cp $1 $work/_restool && cd $here && zmodload zsh/zpty || exit 1

# A shell on a terminal completes each line of the rows and writes what it is then.
cat >$work/.zshrc <<'END'
PATH=$program:$PATH PROMPT= fpath=($ZDOTDIR $fpath)
autoload -Uz compinit && compinit -u -D
rows=(${(f)"$(<$ZDOTDIR/rows)"})
every-match() { compstate[insert]=all compstate[list]=; }
zle-line-init() {
    BUFFER=$rows[1] CURSOR=$#rows[1] comppostfuncs=(every-match)
    zle complete-word
    print -r -- ${(j: :)${(z)BUFFER}} >>$ZDOTDIR/told
    shift rows
    BUFFER=
    (($#rows)) || { : >$ZDOTDIR/done; exit; }
    zle accept-line
}
zle -N zle-line-init
END

# row LINE WANTED: to the last word of this line, which is begun, belong these.
lines=() wanted=()
row() { lines+=("restool $1") wanted+=("restool ${1% *} $2"); }
row "query --locales a" "android"
row "query tables/rich.arsc device d" "dimen/"
row "query tables/rich.arsc device fraction/" "fraction/of_parent fraction/ratio"
row "attr --keep --locales android tables/rich.arsc device attr/mo" "attr/mode"
row "attr tables/rich.arsc device attr/mode style/Ca" "style/Card style/Card.Empty"
row "survey tables/plain.arsc,tables/dense" "tables/plain.arsc,tables/dense.arsc"
row "map tables/rich.arsc tables/overlay." "tables/overlay.arsc"
print -rl -- $lines >$work/rows
zpty shell "ZDOTDIR=$work program=$program TERM=dumb zsh -di"
for try in {1..400}; do
    zpty -rt shell printed
    [[ -e $work/done ]] && break
    sleep 0.05
done
told=("${(@f)$(<$work/told)}") failed=0
for at in {1..$#lines}; do
    [[ $told[at] == $wanted[at] ]] && continue
    print -r -- "failed: $lines[at] ($told[at])"
    failed=1
done
rm -rf $work
exit $failed
