#!/bin/sh
# Tries the edits crates/NAME/wrong-bodies/*.edit: the prover has to refuse each, as it refuses those of must-fail/.
#   wrong_bodies.sh [--all] [--apply] [CRATE..]
#   wrong_bodies.sh --seen [CRATE..]
#   wrong_bodies.sh --control [CRATE..]
# Without a crate it takes all. It works on a copy, so the checkout stays as it is and may be used meanwhile.
#   --all    tries those of must-fail/ too
#   --apply  proves nothing: checks that each edit of these and of seen-by-tests/ still applies (each `old:` text
#            stands once), and that the folders have no more than they may have (planted_bugs.py)
#   --seen   tries those of seen-by-tests/ alone: of each, the test that it names has to fail (planted_bugs.py)
#   --control  tries the controls of the edits that name one: the prover has to let each through (planted_bugs.py)
# A line `control: TEXT` after a `new:` line says what stands there in the control, the right body in the same form.
# An edit shows a bug only where its control is let through: else it may be refused for its form.
# The last line is 'N refused, M let through' (with --apply 'N apply, M do not'), and the status is 0 only where
# M is 0. An edit that could not be tried counts as let through. Whether one is refused is told by the status of
# `rt must-fail`, whatever it says.
# The environment may give RT, the command that proves in place of rt, and JOBS, how many runs go side by side.
here=$(CDPATH='' cd "$(dirname "$0")/.." && pwd) || exit 1
program=$(basename "$0")
rt=${RT:-rt}
. "$here/tools/crates_below.sh"

# try_part WORK LIST: tries the edits that the file LIST, CRATE.PART, names, in a copy of its own, since rt locks
# the folders of a crate and of those below it. The file refused/CRATE.PART gets the names of those that are refused.
try_part() {
    work=$1
    part=$(basename "$2")
    crate=${part%.*}
    copy=$work/copies/$part
    # Links share the files: rt writes none of these in place.
    cp -al "$work/base" "$copy" || return
    if are_refused $(cat "$2"); then
        cat "$2" >"$work/refused/$part"
    else
        # one by one, to know which
        while read -r name; do
            if are_refused "$name" </dev/null; then echo "$name"; fi
        done <"$2" >"$work/refused/$part"
        grep -vxF -f "$work/refused/$part" "$2" | sed "s|^|let through: $crate/|"
    fi
    rm -rf "$copy"
}

# are_refused EDIT..: whether the prover refuses all of these edits of the crate. What it says of them is printed.
are_refused() {
    rm -rf "$copy/crates/$crate/must-fail"
    mkdir "$copy/crates/$crate/must-fail" || return
    for name in "$@"; do
        cp "$work/edits/$crate/$name" "$copy/crates/$crate/must-fail/" || return
    done
    (cd "$copy" && $rt must-fail "$crate") >"$work/answers/$part" 2>&1 </dev/null
    status=$?
    cat "$work/answers/$part" >&2
    return $status
}
if [ "$1" = --part ]; then
    try_part "$2" "$3"
    exit 0
fi

folders=wrong-bodies
while :; do
    case $1 in
    --all) folders='must-fail wrong-bodies' ;;
    --seen)
        shift
        exec python3 "$here/tests/planted_bugs.py" "$@"
        ;;
    --control | --apply) exec python3 "$here/tests/planted_bugs.py" "$@" ;;
    -*)
        sed -n '2,/^here=/{/^#/s/^# \{0,1\}//p;}' "$0" >&2
        exit 2
        ;;
    *) break ;;
    esac
    shift
done
listed=$(all_crates "$here/crates.txt")
for crate in "$@"; do
    echo "$listed" | grep -qx "$crate" || { echo "$program: no crate $crate" >&2; exit 2; }
done

work=$(mktemp -d) || exit 1
trap 'rm -rf "$work"' EXIT
trap 'exit 130' INT TERM
: >"$work/order"
mkdir "$work/base" "$work/base/crates" "$work/edits" "$work/parts" "$work/answers" "$work/refused" "$work/copies" || exit 1

# Each crate's edits, of its folders together.
crates=${*:-$listed}
tried=
for crate in $crates; do
    mkdir "$work/edits/$crate"
    for folder in $folders; do
        for edit in "$here/crates/$crate/$folder"/*.edit; do
            [ -f "$edit" ] || continue
            if [ -e "$work/edits/$crate/$(basename "$edit")" ]; then
                echo "$program: $crate has two edits $(basename "$edit")" >&2
                exit 1
            fi
            cp "$edit" "$work/edits/$crate/" || exit 1
        done
    done
    if rmdir "$work/edits/$crate" 2>/dev/null; then continue; fi
    tried="$tried $crate"
done
count=$(find "$work/edits" -name '*.edit' | wc -l)

# What the crates stand on, themselves with it, lowest first.
needed=$(crates_below "$here/crates.txt" $tried)
[ -f "$here/HANDLES" ] && cp "$here/HANDLES" "$work/base/"
for crate in $needed; do
    grep "^${crate}[ :]" "$here/crates.txt" >>"$work/base/crates.txt"
    cp -a "$here/crates/$crate" "$work/base/crates/" || exit 1
    rm -rf "$work/base/crates/$crate/must-fail" "$work/base/crates/$crate/wrong-bodies" "$work/base/crates/$crate/seen-by-tests"
done

# As many runs side by side as there are processors, and 4 GB of free memory for each.
free=$(awk '/^MemAvailable:/ { print int($2 / 4000000) }' /proc/meminfo 2>/dev/null)
jobs=$(getconf _NPROCESSORS_ONLN)
if [ "${free:-1}" -lt "$jobs" ]; then jobs=${free:-1}; fi
if [ "$jobs" -lt 1 ]; then jobs=1; fi
jobs=${JOBS:-$jobs}

# An edit shows something only in a crate that is proved without it. The edits of a crate are tried in one run, over
# one another's work; where there are fewer crates than runs, in several of five edits at least.
runs_of_each=$(echo "$tried" | awk -v jobs="$jobs" '{ print int((jobs + NF - 1) / NF) }')
for crate in $tried; do
    if [ -f "$work/base/crates/$crate/src/main.rt" ]; then verb=check; else verb=lib; fi
    if (cd "$work/base/crates/$crate" && $rt $verb) >"$work/answers/proof" 2>&1 </dev/null; then
        size=$(find "$work/edits/$crate" -name '*.edit' | awk -v runs="$runs_of_each" '
            END { size = int((NR + runs - 1) / runs); print size < 5 ? 5 : size }')
        (cd "$work/edits/$crate" && ls) | split -l "$size" - "$work/parts/$crate."
        # The last crates are the dearest, and go first.
        { find "$work/parts" -name "$crate.*" | sort; cat "$work/order"; } >"$work/later" && mv "$work/later" "$work/order"
    else
        echo "$crate is not proved, so its edits were not tried:"
        tail -n 5 "$work/answers/proof"
    fi
done
xargs -r -P "$jobs" -n 1 sh "$0" --part "$work" <"$work/order"

refused=$(cat "$work/refused"/* 2>/dev/null | wc -l)
echo "$refused refused, $((count - refused)) let through"
[ "$refused" = "$count" ]
