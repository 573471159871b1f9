# What scripts ask about crates.txt. A script reads this file in with `.`.

# all_crates LIST: the crates that LIST, a crates.txt, has, lowest first.
all_crates() {
    sed -n 's/^\([a-z0-9_]*\).*:.*/\1/p' "$1"
}

# crates_below LIST CRATE..: the crates that these stand on, themselves with them, lowest first. It needs nothing but a shell.
crates_below() {
    lines=
    while read -r line || [ -n "$line" ]; do
        lines="$line
$lines"
    done <"$1"
    shift
    wanted=" $* " order=
    while IFS=: read -r name uses; do
        name=${name%% *}
        case $name in '' | \#*) continue ;; esac
        case $wanted in *" $name "*) wanted="$wanted$uses " order="$name $order" ;; esac
    done <<END
$lines
END
    echo "$order"
}

# crates_above LIST CRATE..: the crates that stand on these, without themselves, lowest first.
crates_above() {
    list=$1
    shift
    awk -v crates="$*" '
        BEGIN { split(crates, given, " "); for (it in given) changed[given[it]] = 1 }
        !/^#/ && /:/ {
            split($0, halves, ":"); split(halves[1], head, " "); name = head[1]
            if (name in changed) next
            count = split(halves[2], below, " ")
            for (at = 1; at <= count; at++) if (below[at] in changed) { changed[name] = 1; order = order name " "; break }
        }
        END { print order }' "$list"
}
