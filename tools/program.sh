# Which program is of the sources at hand. A script reads this file in with `.`, with the repository as $here.
#
# Beside a program, `restool`, stands `proved-with`: the line of `rt version`, and in a second line the sum of the sources
# that it was built from (source_sum.sh).

# Where the program stands that was built here, and the one that the repository carries.
built=$here/crates/restool/out
prebuilt=$here/prebuilt
# Which of the two was chosen, below a sum of what the files were like.
chosen=$here/out/chosen

# choose_program: makes $program the one that was built here, or else the prebuilt one, if it is of the sources at hand.
# If neither is, $why says so. The choice is made again only where a file that it depends on is another one, or has another
# size or time of change: a file that is written twice within one tick of the clock of such times may seem the same.
choose_program() {
    now=$(files_now 2>/dev/null)
    if ! read_choice; then
        sum=$(sum_of_sources)
        if is_built; then
            folder=crates/restool/out
        elif is_prebuilt; then
            folder=prebuilt
        else
            say_why
            return 1
        fi
        keep_choice
    fi
    program=$here/$folder/restool
}

# files_now: prints a sum of the files that the choice depends on: of their paths, numbers, sizes and times of change.
files_now() {
    cd "$here" && LC_ALL=C find crates.txt crates/*/src crates/*/specs crates/*/proofs crates/restool/out/restool \
        crates/restool/out/proved-with prebuilt -type f -printf '%p %i %s %C@\n' | sha256sum
}

# read_choice: makes $folder the one in $chosen, if the files are what they were then.
read_choice() {
    [ -n "$now" ] && [ -r "$chosen" ] && { read -r known && read -r folder; } <"$chosen" && [ "$known" = "$now" ]
}

# keep_choice: writes $folder to $chosen, where that can be written and `find` can print times.
keep_choice() {
    [ -n "$now" ] && find "$here/crates.txt" -printf '' && mkdir -p "$here/out" &&
        printf '%s\n' "$now" "$folder" >"$chosen.$$" && mv -f "$chosen.$$" "$chosen"
    return 0
} 2>/dev/null

# sum_of_sources: prints the sum of the sources at hand; nothing, where it cannot be made.
sum_of_sources() {
    sh "$here/tools/source_sum.sh" 2>/dev/null
}

# read_note FOLDER: makes $kit and $noted the two lines that proved-with there has; empty, where it has none.
read_note() {
    kit='' noted=''
    if [ -r "$1/proved-with" ]; then { read -r kit && read -r noted; } <"$1/proved-with"; fi
}

# is_prebuilt: the prebuilt program is of the sources at hand, with the sum $sum.
is_prebuilt() {
    read_note "$prebuilt"
    [ -x "$prebuilt/restool" ] && [ -n "$sum" ] && [ "$noted" = "$sum" ]
}

# is_noted: what was built here has a sum, $noted, and was not built anew since that was written.
is_noted() {
    read_note "$built"
    [ -n "$noted" ] && [ -z "$(find "$built/restool" -newer "$built/proved-with")" ]
}

# is_built: what was built here is of the sources at hand, with the sum $sum. Where it has no sum, as after `rt ci` alone, or
# they have none, no source is newer.
is_built() {
    [ -x "$built/restool" ] || return 1
    if is_noted && [ -n "$sum" ]; then
        [ "$noted" = "$sum" ]
    else
        newer=$(cd "$here" && find crates.txt crates/*/src crates/*/specs crates/*/proofs -newer "$built/restool" 2>/dev/null)
        [ -z "$newer" ]
    fi
}

# say_why: makes $why say why neither program is of the sources at hand.
say_why() {
    if ! command -v sha256sum >/dev/null; then
        why="sha256sum is missing, so nothing tells whether prebuilt/restool is of these sources"
    elif [ -x "$prebuilt/restool" ]; then
        why="prebuilt/restool is of other sources"
    else
        why="there is no prebuilt/restool"
    fi
}

# prove_program: proves every crate and builds the program.
prove_program() {
    python3 "$here/tools/prove.py" </dev/null && program=$built/restool
}

# build_program: the same, unless what was built here is of the sources at hand.
build_program() {
    sum=$(sum_of_sources)
    if is_built; then program=$built/restool; else prove_program; fi
}
