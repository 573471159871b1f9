#!/bin/sh
# Prints the processor seconds that the gate takes for each crate: for its proof, its tests and its must-fail edits, and
# the sums, as a table: gate.sh [CRATE..]. Without a crate it measures all, and takes as long as the gate, but for the runs
# of the built program. Each part works from nothing, with one job, on a copy of the repository, and each proof is as the
# gate makes it (tools/prove.py --as-ci); those below a named crate are proved too. Where the crates of the fixed proof
# (README.md) are among them, the sum is printed as a multiple of that too. They are proved five times: first, beside the second
# and the last third of the crates, and twice among the tests and edits. For what runs side by side takes longer, and a machine
# that others share is not as fast all the time: the mean of the five is one fixed proof.
# The environment may give JOBS, how many tests and edits run side by side; and COPY, a copy of the repository: what
# tools/prove.py --as-ci proved there is not proved again, and what is proved stays there.
here=$(CDPATH='' cd "$(dirname "$0")/.." && pwd) || exit 1
program=$(basename "$0")
fixed="contract_words chunk_walk json_input apk_member config_record"
# The parts in which they are proved again: beside other proofs, and among the tests and edits.
beside="again1 again2"
among="again3 again4"
. "$here/tools/crates_below.sh"

# measure WORK CRATE PART COMMAND..: runs a command in the crate's folder of the part's room, and keeps the processor seconds, of
# user and system, that it and its children took. What it printed is shown where it failed.
measure() {
    seconds=$1/seconds/$2.$3 printed=$1/printed/$2.$3
    (
        cd "$1/rooms/$2.$3/crates/$2" || exit 1
        shift 3
        "$@" >"$printed" 2>&1 </dev/null
        ended=$?
        # (not in a pipe, where it would print the times of a new process)
        times >"$seconds.times"
        awk '{ for (at = 1; at <= 2; at++) { split($at, it, /[ms]/); sum += 60 * it[1] + it[2] } } END { print sum }' "$seconds.times" >"$seconds"
        exit $ended
    ) || {
        echo "$program: failed: $2 $3" >&2
        tail -n 10 "$printed" >&2
        touch "$1/failed"
        return 1
    }
    echo "$2 $3: $(cat "$seconds") s" >&2
}

# make_room WORK CRATE PART: a copy for a part of a crate, since rt lets no two runs into one folder. It has the libraries, and
# nothing that the crate's own proof left, so that the tests are proved from nothing, as the gate does it.
make_room() {
    room=$1/rooms/$2.$3
    mkdir -p "$room/crates" || return 1
    for below in $(crates_below "$copy/crates.txt" "$2"); do
        mkdir -p "$room/crates/$below/out" || return 1
        grep "^$below:" "$copy/crates.txt" >>"$room/crates.txt" || return 1
        for folder in src specs proofs must-fail stdin stdout args status data out/rlib; do
            if [ -e "$copy/crates/$below/$folder" ]; then
                cp -al "$copy/crates/$below/$folder" "$room/crates/$below/$folder" || return 1
            fi
        done
    done
}

# measure_rest WORK PART CRATE: a part of a crate that is proved: its tests, its edits, or its proof again.
measure_rest() {
    make_room "$1" "$3" "$2" || return 1
    case $2 in
    tests) measure "$1" "$3" tests rt test --jobs 1 ;;
    edits) measure "$1" "$3" edits sh -c "cd ../.. && rt must-fail --anew $3" ;;
    *) measure "$1" "$3" "$2" python3 "$copy/tools/rt_once.py" as-ci ;;
    esac
    rm -rf "$1/rooms/$3.$2"
}
if [ "$1" = --rest ]; then
    copy=$COPY
    measure_rest "$2" "$3" "$4"
    exit 0
fi

# prove_third N: proves those of the crates that are needed which are in the Nth third of them, or before, and the crates of
# the fixed proof that are needed.
prove_third() {
    asked=$(echo $needed | awk -v third="$1" '{ for (at = 1; at <= int((NF * third + 2) / 3); at++) print $at }')
    python3 "$copy/tools/prove.py" --as-ci $(fixed_again fixed | cut -d ' ' -f 2) $asked || touch "$work/failed"
}

# rest: a line for each part that is measured behind the proofs: what it is, and of which crate. The fixed proofs stand between.
rest() {
    left=$among
    for crate in $named; do
        folder=$copy/crates/$crate
        if grep -rq '^ *#\[test\]' "$folder/src"; then echo "tests $crate"; fi
        if [ -d "$folder/must-fail" ]; then
            echo "edits $crate"
            fixed_again "${left%% *}"
            case $left in *" "*) left=${left#* } ;; *) left= ;; esac
        fi
    done
    for part in $left; do fixed_again "$part"; done
}

# fixed_again PART: the lines of one fixed proof, of the crates that are there.
fixed_again() {
    for crate in ${1:+$fixed}; do
        case " $(echo $needed) " in *" $crate "*) echo "$1 $crate" ;; esac
    done
}

listed=$(all_crates "$here/crates.txt")
for crate in "$@"; do
    echo "$listed" | grep -qx "$crate" || { echo "$program: no crate $crate" >&2; exit 2; }
done
named=${*:-$listed}
# The crates that are named and all that they stand on, lowest first.
needed=$(crates_below "$here/crates.txt" $named)

work=$(mktemp -d) || exit 1
trap 'rm -rf "$work"' EXIT
trap 'exit 130' INT TERM
copy=${COPY:-$work/copy}
mkdir "$work/rooms" "$work/seconds" "$work/printed" || exit 1
if [ -z "$COPY" ]; then
    mkdir "$copy" && (cd "$here" && tar -cf - --exclude=.git --exclude=out .) | tar -xf - -C "$copy" || exit 1
fi

prove_third 1
third=2
for part in $beside; do
    fixed_again "$part" | COPY=$copy xargs -r -n 2 sh "$0" --rest "$work" &
    prove_third $third
    wait
    third=$((third + 1))
done
for crate in $needed; do
    sed -n '$s/ processor seconds$//p' "$copy/out/proofs/$crate.log" >"$work/seconds/$crate.proof"
done

# Tests and edits side by side, with 4 GB of free memory for each.
free=$(awk '/^MemAvailable:/ { print int($2 / 4000000) }' /proc/meminfo 2>/dev/null)
jobs=$(getconf _NPROCESSORS_ONLN)
if [ "${free:-1}" -lt "$jobs" ]; then jobs=${free:-1}; fi
if [ "$jobs" -lt 1 ]; then jobs=1; fi
[ -e "$work/failed" ] || rest | COPY=$copy xargs -r -P "${JOBS:-$jobs}" -n 2 sh "$0" --rest "$work"

{
    for crate in $fixed; do
        for part in proof $beside $among; do
            echo "fixed $(cat "$work/seconds/$crate.$part" 2>/dev/null || echo none)"
        done
    done
    for crate in $named; do
        for part in proof tests edits; do
            echo "$crate $part $(cat "$work/seconds/$crate.$part" 2>/dev/null || echo 0)"
        done
    done
} | awk '
    $1 == "fixed" { fixed += $2 / 5; if ($2 == "none") unmeasured = 1; next }
    { took[$1, $2] = $3; all[$1] += $3; sum[$2] += $3; total += $3; if (!($1 in seen)) { seen[$1] = 1; names[++count] = $1 } }
    function cell(seconds) { return seconds ? sprintf("%.0f", seconds) : "" }
    function row(name, proof, tests, edits, seconds) {
        printf "| %s | %s | %s | %s | %s |\n", name, cell(proof), cell(tests), cell(edits), cell(seconds)
    }
    function told(name, seconds) {
        printf "%s: %.0f processor minutes", name, seconds / 60
        if (fixed && !unmeasured) printf ", %.1f times the fixed proof, which took %.0f s", seconds / fixed, fixed
        print ""
    }
    END {
        print "| crate | proof | tests | edits | all, in processor seconds |"
        print "|---|---|---|---|---|"
        for (at = 1; at <= count; at++) {
            dearest = ""
            for (it in seen) if (seen[it] && (dearest == "" || all[it] > all[dearest])) dearest = it
            seen[dearest] = 0
            row(dearest, took[dearest, "proof"], took[dearest, "tests"], took[dearest, "edits"], all[dearest])
        }
        row("all", sum["proof"], sum["tests"], sum["edits"], total)
        print ""
        told("the gate", total)
    }'
[ ! -e "$work/failed" ]
