#!/bin/sh
# Writes down where the ids of Android's framework end on phones in 67 locales that differ in nothing else, with locales compared
# as a phone does: locale_values.sh FOLDER. The folder gets a file for each locale, LOCALE.values, which has what
# `query --locales android` prints of each id, and which another reader of tables can be held against. Printed are, for each
# locale, how many ids end otherwise than by language and region alone, and the SHA-256 of its file.
#
# locale_values.txt beside it has what is printed, below the version of the package and the SHA-256 of the table. The locales are
# those of this list; Hebrew and Indonesian are `iw` and `in` there, as Android asks tables for them. `locale_values.sh --check`
# tells whether the same comes out again.
#
# The framework's table is got as query.sh gets it. Needs GNU time (Debian's package time) and python3.
#
# Status 0: all was written, or is the same. 1: a command failed, or something is not the same. 2: the framework's table is not to
# be had, or there is no folder.
folder=$1
case $folder in
'') echo "locale_values.sh: a folder, or --check" >&2; exit 2 ;;
--check) ;;
*) mkdir -p "$folder" && folder=$(realpath "$folder") || exit 1 ;;
esac
. "$(dirname "$0")/common.sh"
cd "$work" || exit 1
known=$here/locale_values.txt
if [ "$folder" = --check ]; then
    mkdir values && folder=values || exit 1
    exec >fresh
fi

if ! framework; then
    echo "locale_values.sh: the framework's table is not to be had" >&2
    exit 2
fi
if [ -d root ]; then
    version=$(dpkg-deb -f android-framework-res*.deb Version)
else
    version=$(dpkg-query -W -f '${Version}' android-framework-res)
fi
sum_of() { sha256sum "$1" | cut -d ' ' -f 1; }
echo "android-framework-res $version $(sum_of framework.arsc)"

echo '[{"table":"framework.arsc"}]' >layers
"$program" rows framework.arsc | awk '$1 == "row" { print $2 }' | sort -u >ids

# ends WORD..: a line for each id, by a query with these words. An id that is absent makes its status 1.
ends() {
    "$program" query "$@" layers device @ids >printed
    [ $? -le 1 ] && grep -v '^set-aside ' printed
}
sed 1d "$known" | while read -r locale _; do
    echo "{\"density\":420,\"locale\":\"$locale\"}" >device
    ends >plain && ends --locales android >"$folder/$locale.values" || exit 1
    echo "$locale $(diff plain "$folder/$locale.values" | grep -c '^>') $(sum_of "$folder/$locale.values")"
done || exit 1

[ ! -e fresh ] || diff "$known" fresh >&2
