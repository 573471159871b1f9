#!/bin/sh
# Which program ./restool runs, in a small repository: what was built here, the prebuilt one, or what it proves first. There
# no proof is made, and the path has nothing but what ./restool needs. Prints the rows that fail; the status is 1 then.
here=$(CDPATH='' cd "$(dirname "$0")/.." && pwd) || exit 1
work=$(mktemp -d) || exit 1
trap 'rm -rf "$work"' EXIT
failed=0

# A program, restool, on crates of which one has no proofs; and one that it does not stand on.
repository="$work/a repository"
mkdir -p "$repository/tools" "$repository/tests" "$work/bin" && cd "$repository" || exit 1
cp "$here/restool" . && cp "$here"/tools/*.sh tools/ && cp "$here/tests/same_prebuilt.sh" tests/ || exit 1
for crate in text table restool other; do
    mkdir -p "crates/$crate/src" "crates/$crate/specs" "crates/$crate/proofs/read" "crates/$crate/must-fail"
    echo "$crate" | tee "crates/$crate/src/lib.rt" "crates/$crate/specs/Lib.antt" "crates/$crate/proofs/read/Proof.antt" \
        >"crates/$crate/must-fail/bug.edit"
done
rm -r crates/text/proofs
printf '%s\n' '# lowest first' 'text:' 'table: text std' 'restool: table' 'other: text' >crates.txt

# program FOLDER TEXT: a program there that prints a text.
program() {
    mkdir -p "$1" && printf '%s\n' '#!/bin/sh' "echo $2" >"$1/restool" && chmod +x "$1/restool"
}

# Where the toolchain would prove, this writes a program, and of which sources it is.
cat >"$work/bin/python3" <<'END'
#!/bin/sh
PATH=$PATH:/usr/bin:/bin
cd "${1%/tools/prove.py}" && mkdir -p crates/restool/out && cd crates/restool/out || exit 1
printf '%s\n' '#!/bin/sh' 'echo proved' >restool
chmod +x restool
{ rt version && sh ../../../tools/source_sum.sh; } >proved-with
END
printf '%s\n' '#!/bin/sh' 'echo a toolchain' >"$work/bin/rt"
chmod +x "$work/bin/rt" "$work/bin/python3"
for tool in sh dirname find sort sha256sum mkdir mv; do ln -s "$(command -v $tool)" "$work/bin/"; done
cp -a "$work/bin" "$work/without" && rm "$work/without/sha256sum"
# (a sum of the sources sorts their lines)
cp -a "$work/bin" "$work/kept" && rm "$work/kept/sort"

fails() {
    failed=$((failed + 1))
    echo "failed: $1"
    shift
    printf '  %s\n' "$@"
}

# runs NAME TEXT [WHY]: ./restool prints this text, of the program that it runs. It says nothing, but where it is to prove
# first for this reason.
runs() {
    out=$(PATH=$tools ./restool 2>"$work/err")
    err=$(cat "$work/err")
    case ${3:+told}:$err in
    : | "told:restool: $3"*"; proving every crate"*) [ "$out" = "$2" ] && return ;;
    esac
    fails "$1" "$out" "$err"
}

# proves NAME WHY: ./restool proves first, for this reason. What it built is thrown away.
proves() {
    runs "$1" proved "$2"
    rm -rf crates/restool/out
}

tools=$work/bin
others='prebuilt/restool is of other sources'

# ---- no program, and one that is prebuilt
proves "no program" 'there is no prebuilt/restool'
program prebuilt prebuilt
proves "a prebuilt program of which nothing is known" "$others"
{ echo 'a toolchain' && sh tools/source_sum.sh; } >prebuilt/proved-with
runs "the prebuilt program" prebuilt
tools=$work/kept
runs "the prebuilt program, without a new sum" prebuilt
tools=$work/bin
cp -r "$repository" "$work/elsewhere"
cd "$work/elsewhere" && runs "another folder" prebuilt
cd "$repository" || exit 1
cp prebuilt/proved-with "$work/proved-with"

# changes NAME CHANGE UNDO: after a change nothing is of the sources, and once it is undone the prebuilt program is.
changes() {
    runs "before: $1" prebuilt
    eval "$2"
    proves "$1" "$others"
    eval "$3"
    runs "undone: $1" prebuilt
}
changes "a source of the same size" 'echo Text >crates/text/src/lib.rt' 'echo text >crates/text/src/lib.rt'
changes "an older source" 'echo Text >crates/text/src/lib.rt; touch -r crates/other/src/lib.rt crates/text/src/lib.rt' \
    'echo text >crates/text/src/lib.rt'
changes "a removed source" 'rm crates/table/proofs/read/Proof.antt' 'echo table >crates/table/proofs/read/Proof.antt'
changes "a new source" 'echo >crates/table/src/more.rt' 'rm crates/table/src/more.rt'
changes "a source of another name" 'mv crates/table/src/lib.rt crates/table/src/table.rt' 'mv crates/table/src/table.rt crates/table/src/lib.rt'
changes "a removed folder" 'mv crates/table/proofs "$work"' 'mv "$work/proofs" crates/table'
changes "a new folder" 'cp -r crates/table/proofs crates/text' 'rm -r crates/text/proofs'
changes "two sources changed into each other" \
    'mv crates/text/src/lib.rt "$work"; mv crates/table/src/lib.rt crates/text/src; mv "$work/lib.rt" crates/table/src' \
    'mv crates/text/src/lib.rt "$work"; mv crates/table/src/lib.rt crates/text/src; mv "$work/lib.rt" crates/table/src'
changes "what a crate stands on" "printf '%s\n' '# lowest first' 'text:' 'table: text' 'restool: table' 'other: text' >crates.txt" "printf '%s\n' '# lowest first' 'text:' 'table: text std' 'restool: table' 'other: text' >crates.txt"
changes "another prebuilt program's sum" 'echo "a toolchain" >prebuilt/proved-with' 'cp "$work/proved-with" prebuilt'
chmod -x prebuilt/restool
proves "a prebuilt program that cannot be run" 'there is no prebuilt/restool'
chmod +x prebuilt/restool

# stays NAME CHANGE: what is no source changes nothing.
stays() {
    eval "$2"
    runs "$1" prebuilt
}
stays "a planted bug" 'echo >crates/text/must-fail/bug.edit'
stays "what a build left" 'mkdir -p crates/text/out && echo >crates/text/out/log'
stays "a crate that the program does not stand on" 'echo >crates/other/src/lib.rt'
stays "a crate that is new" 'echo "more:" >>crates.txt'
stays "a source that is written anew" 'echo text >crates/text/src/lib.rt'

# ---- where out/ cannot be written
rm -rf out
echo >out
runs "an out/ that cannot be written" prebuilt
runs "an out/ that cannot be written, once more" prebuilt
changes "a source where out/ cannot be written" 'echo Text >crates/text/src/lib.rt' 'echo text >crates/text/src/lib.rt'
rm out

# ---- what was built here
program crates/restool/out built
cp prebuilt/proved-with crates/restool/out/
runs "what was built here" built
tools=$work/kept
runs "what was built here, without a new sum" built
tools=$work/bin
echo text >crates/text/src/lib.rt
runs "what was built here, of sources that were written anew" built
echo Text >crates/text/src/lib.rt
proves "what was built of other sources" "$others"
echo text >crates/text/src/lib.rt
program crates/restool/out built
printf '%s\n' 'a toolchain' 0123 >crates/restool/out/proved-with
runs "the prebuilt program beside one of other sources" prebuilt
program crates/restool/out again
touch -d '2 seconds' crates/restool/out/restool
runs "what was built since its sum was written, with nothing newer" again
touch -d '4 seconds' crates/text/src/lib.rt
runs "what was built since its sum was written, with a newer source" prebuilt
rm crates/restool/out/proved-with
runs "what was built without a sum, with a newer source" prebuilt
touch -d '6 seconds' crates/restool/out/restool
runs "what was built without a sum, with nothing newer" again

# ---- without sha256sum
tools=$work/without
runs "no sha256sum" again
rm -r crates/restool/out
proves "no sha256sum, and nothing built" 'sha256sum is missing'
echo 'a toolchain' >prebuilt/proved-with
proves "no sha256sum, and a prebuilt program without a sum" 'sha256sum is missing'
tools=$work/bin

# ---- the scripts that make it and compare it
PATH=$work/bin:$PATH

# same NAME STATUS TEXT: the comparison ends with this status and says this.
same() {
    told=$(sh tests/same_prebuilt.sh 2>&1)
    ended=$?
    [ "$ended" = "$2" ] || fails "$1" "status $ended" "$told"
    case $told in *"prebuilt: $3"*) ;; *) fails "$1" "$told" ;; esac
}
rm -r prebuilt
sh tools/prebuilt.sh >/dev/null || fails "tools/prebuilt.sh" "status $?"
same "the same" 0 'what these sources build'
program prebuilt proven
same "other bytes" 1 'not what these sources build'
{ echo 'another toolchain' && sh tools/source_sum.sh; } >prebuilt/proved-with
same "another toolchain" 0 'of another toolchain'
{ echo 'a toolchain' && echo 0123; } >prebuilt/proved-with
same "other sources" 0 'of other sources; tools/prebuilt.sh makes it anew'
rm -r prebuilt
same "no prebuilt program" 0 'missing'
sh tools/prebuilt.sh >/dev/null
rm -r crates/restool/out
runs "what tools/prebuilt.sh made" proved
mkdir docs schemas examples
echo >README.md
# (it has no help, of which the rest of a package is made)
sh tools/package.sh package >/dev/null 2>&1
tar -xzOf package/*.tar.gz restool-proved-linux-x86_64/restool | cmp - prebuilt/restool ||
    fails "a package of the prebuilt program" "status $?"

[ "$failed" = 0 ]
