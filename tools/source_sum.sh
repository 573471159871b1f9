#!/bin/sh
# Prints one sum of all sources of a program: source_sum.sh [CRATE]. CRATE is restool if it is left out.
#
# The sources are of the crate and of those that it stands on: their lines in crates.txt, and the files in src, specs and
# proofs. Of each file `sha256sum` prints a line, with its path from here. The sum is the SHA-256 of all these lines, sorted by
# their bytes.
here=$(CDPATH='' cd "$(dirname "$0")/.." && pwd) || exit 1
. "$here/tools/crates_below.sh"
cd "$here" || exit 1

crates=$(crates_below crates.txt "${1:-restool}")
listed=
while IFS= read -r line; do
    name=${line%%:*}
    case " $crates " in
        *" ${name%% *} "*) listed="$listed$line
" ;;
    esac
done <crates.txt
set --
for crate in $crates; do
    for part in src specs proofs; do
        if [ -d "crates/$crate/$part" ]; then set -- "$@" "crates/$crate/$part"; fi
    done
done
lines=$(find "$@" -type f -exec sha256sum {} +) || exit 1
sum=$(printf '%s%s\n' "$listed" "$lines" | LC_ALL=C sort | sha256sum) || exit 1
echo "${sum%% *}"
