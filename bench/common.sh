# For the scripts beside it: $program is the built restool, unless it is set before, $work a folder that is removed at the end.
here=$(CDPATH='' cd "$(dirname "$0")" && pwd) || exit 1
work=$(mktemp -d) || exit 1
trap 'rm -rf "$work"' EXIT
if ! /usr/bin/time -f '%e %M' -o "$work/time" true; then
    echo "$(basename "$0"): GNU time is needed (Debian's package time)" >&2
    exit 1
fi
if [ -n "$program" ]; then
    program=$(realpath "$program") || exit 1
else
    program=$(here=$(dirname "$here") && . "$here/tools/program.sh" && build_program && echo "$program") || exit 1
fi

# table_of_apk FILE: the table in a package, which is a zip file.
table_of_apk() {
    python3 -c 'import sys, zipfile; sys.stdout.buffer.write(zipfile.ZipFile(sys.argv[1]).read("resources.arsc"))' "$1"
}

# seconds COMMAND..: the least time of three runs, whose output is left in `printed`. A command that finds
# something absent ends with status 1.
seconds() {
    for _ in 1 2 3; do
        /usr/bin/time -q -f '%e' -o time "$@" >printed
        ended=$?
        if [ "$ended" -gt 1 ]; then
            echo "$(basename "$0"): failed with status $ended: $1 $2 .." >&2
            return 1
        fi
        cat time
    done >times || return
    sort -n times | head -n 1
}

# timed RUNS DUE COMMAND..: the least time of so many runs and their greatest memory in MB. What is printed, which is left
# in `printed`, has to begin with what is due.
timed() {
    runs=$1 due=$2
    shift 2
    for _ in $(seq "$runs"); do
        /usr/bin/time -q -f '%e %M' -o time "$@" >printed
        case $(head -c 200 printed | head -n 1) in
        "$due"*) cat time ;;
        *)
            echo "$(basename "$0"): $due is due: $1 $2 ..: $(head -c 200 printed | head -n 1)" >&2
            return 1
            ;;
        esac
    done >times || return
    sort -n times | awk 'NR == 1 { t = $1 } $2 > m { m = $2 } END { printf "%s %.0f\n", t, m / 1024 }'
}

# framework: leaves the table of Android's framework in framework.arsc, that of Debian's package
# android-framework-res. Where that is not installed it is downloaded and unpacked into the work folder.
framework() {
    apk=/usr/share/android-framework-res/framework-res.apk
    if [ ! -r "$apk" ]; then
        mkdir root
        apt-cache show android-framework-res >/dev/null 2>&1 || apt-get update >/dev/null 2>&1
        apt-get download android-framework-res >download.log 2>&1 || return
        dpkg -x android-framework-res*.deb root || return
        apk=$work/root$apk
    fi
    table_of_apk "$apk" >framework.arsc
}
