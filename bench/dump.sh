#!/bin/sh
# Times `restool rows` and `restool dump` beside `aapt dump --values resources`, on the table of Android's
# framework, and then `restool dump` on tables of 20,000 strings in 30 languages and of fewer strings.
# On the framework's table the commands run ten times, in turn, and on the others three times; the least time counts,
# and the greatest peak of memory.
#
# The framework's table and aapt are Debian's packages android-framework-res and aapt. Where they are not
# installed they are downloaded with apt-get, with what they need, and unpacked into a temporary folder;
# nothing is installed. Where apt-get does not know them, its lists are updated first. Needs GNU time
# (Debian's package time) and python3.
#
# Status 0: all was measured. 1: a command failed. 2: the packages are not to be had; the tables that this
# script makes are measured all the same.
. "$(dirname "$0")/common.sh"
status=0

# run NAME COMMAND..: runs a command, writes its output to NAME.out, and adds its time and its memory to
# NAME.times. After a failure the command of that name is not run again.
run() {
    name=$1
    shift
    [ -e "$work/$name.failed" ] && return
    /usr/bin/time -q -f '%e %M' -o "$work/time" "$@" >"$work/$name.out" 2>"$work/errors"
    ended=$?
    if [ "$ended" = 0 ]; then
        cat "$work/time" >>"$work/$name.times"
        return
    fi
    echo "dump.sh: failed with status $ended: $*" >&2
    head -n 3 "$work/errors" >&2
    rm -f "$work/$name.times"
    touch "$work/$name.failed"
    status=1
}

# The least time and the greatest memory of the runs of a name.
best() { sort -n "$work/$1.times" | awk 'NR == 1 { t = $1 } $2 > m { m = $2 } END { print t, m }'; }

size() { wc -c <"$1" | tr -d ' '; }

# ---- Debian's packages

# Leaves the package in $apk and aapt in $aapt, and says where they are from.
find_packages() {
    apk=/usr/share/android-framework-res/framework-res.apk
    aapt=$(command -v aapt)
    if [ -r "$apk" ] && [ -n "$aapt" ]; then
        echo "aapt and android-framework-res: installed"
        return
    fi
    download_packages >"$work/download.log" 2>&1 || return
    apk=$work/root$apk
    aapt=$work/root/usr/lib/android-sdk/build-tools/debian/aapt
    [ -r "$apk" ] && [ -x "$aapt" ] || return
    echo "aapt and android-framework-res: downloaded, not installed:"
    (cd "$work/debs" && printf '  %s\n' *.deb)
}

# Downloads both packages, installed or not, and what they need that is not installed.
download_packages() {
    apt-cache show aapt android-framework-res >/dev/null || apt-get update || return
    needed=$(apt-get install -s --no-install-recommends aapt android-framework-res |
        awk '$1 == "Inst" { print $2 }') || return
    mkdir "$work/debs" "$work/root"
    for package in $(printf '%s\n' aapt android-framework-res "$needed" | sort -u); do
        (cd "$work/debs" && apt-get download "$package") || return
    done
    for file in "$work"/debs/*.deb; do dpkg -x "$file" "$work/root" || return; done
}

# aapt with the libraries that were unpacked beside it.
write_aapt() {
    libraries=$(find "$work/root" -name '*.so*' -printf '%h\n' 2>/dev/null | sort -u | paste -s -d :)
    printf '#!/bin/sh\nLD_LIBRARY_PATH=%s exec %s "$@"\n' "'$libraries'" "'$aapt'" >"$work/aapt"
    chmod +x "$work/aapt"
}

# ---- the framework's table

# line NAME WORDS: a line of the table of times.
line() {
    [ -s "$work/$1.times" ] || return
    best "$1" | {
        read -r seconds kibibytes
        ratio=-
        [ -s "$work/aapt.times" ] && ratio=$(best aapt | awk -v mine="$seconds" '{ printf "%.2f", mine / $1 }')
        printf '%-30s %8s %10s %13s %12s %13s\n' "$2" "$seconds" "$kibibytes" "$(size "$work/$1.out")" "$ratio" \
            "$(((kibibytes * 1024 - $(size "$work/framework.arsc")) / 1000))"
    }
}

framework() {
    write_aapt
    table_of_apk "$apk" >"$work/framework.arsc" || exit 1
    for _ in 1 2 3 4 5 6 7 8 9 10; do
        run rows "$program" rows "$work/framework.arsc"
        run dump "$program" dump "$work/framework.arsc"
        run aapt "$work/aapt" dump --values resources "$apk"
    done
    echo "the framework's table, $(size "$work/framework.arsc") bytes:"
    printf '%-30s %8s %10s %13s %12s %13s\n' command seconds 'peak KiB' 'output bytes' "of aapt's" 'kB over input'
    line rows 'restool rows'
    line dump 'restool dump'
    line aapt 'aapt dump --values resources'
}

# ---- tables that grow

grown() {
    printf '%-10s %12s %8s %13s %8s %12s %10s %12s\n' strings 'table bytes' rows 'output bytes' seconds \
        'seconds/MB' 'peak KiB' 'above/row'
    for strings in 1250 2500 5000 10000 20000; do
        table=$work/$strings.arsc
        python3 "$here/make_strings.py" "$strings" 30 "$table" || exit 1
        for _ in 1 2 3; do run "$strings" "$program" dump "$table"; done
        [ -s "$work/$strings.times" ] && best "$strings" | {
            read -r seconds kibibytes
            rows=$(grep -c '^  0x' "$work/$strings.out")
            input=$(size "$table")
            printf '%-10s %12s %8s %13s %8s %12s %10s %12s\n' "$strings" "$input" "$rows" \
                "$(size "$work/$strings.out")" "$seconds" \
                "$(awk -v s="$seconds" -v n="$input" 'BEGIN { printf "%.4f", s * 1e6 / n }')" \
                "$kibibytes" "$(((kibibytes * 1024 - input) / (rows > 0 ? rows : 1)))"
        }
        rm -f "$table" "$work/$strings.out"
    done
}

if find_packages; then
    framework
else
    echo "dump.sh: Debian's packages aapt and android-framework-res are not to be had:" >&2
    tail -n 3 "$work/download.log" >&2
    status=2
fi
echo
echo "dump of so many strings in 30 languages (above/row: bytes of peak memory a row, above the input):"
grown
exit $status
