#!/bin/sh
# Has Android's own packaging tool write a table twice, with dense types and with sparse ones, and holds what restool
# says of both against each other: `rows`, `dump`, and `query` of all ids for three devices. sparse_by_aapt2.sh PROGRAM
#
# With a second word, a folder, the two tables are left there: tests/tables/dense.arsc and sparse.arsc were made so.
# Needs aapt2 and the framework's package, which are Debian's packages aapt and android-framework-res (of
# aapt2, what it needs has to be installed too; the framework is downloaded where it is missing), and python3.
#
# Status 0: they say the same. 1: they do not. 2: a tool is missing.
program=$(realpath "$1") folder=$2
[ -z "$folder" ] || folder=$(realpath "$folder") || exit 2
here=$(CDPATH='' cd "$(dirname "$0")" && pwd) || exit 1
work=$(mktemp -d) || exit 2
trap 'rm -rf "$work"' EXIT
cd "$work" || exit 2
missing() {
    echo "sparse_by_aapt2.sh: missing: $1" >&2
    exit 2
}
command -v aapt2 >/dev/null || missing aapt2
apk=/usr/share/android-framework-res/framework-res.apk
if [ ! -r "$apk" ]; then
    apt-get download android-framework-res >download.log 2>&1 && dpkg -x android-framework-res*.deb root || missing "$apk"
    apk=$work/root$apk
fi

# ---- resources: of each of 30 names a value in the default configuration, and of every STEP-th one in another

# values FOLDER STEP WORD
values() {
    mkdir -p "res/$1"
    awk -v step="$2" -v word="$3" 'BEGIN {
        print "<resources>"
        for (n = 0; n < 30; n += step) {
            printf "<string name=\"text_%d\">%s %d</string>\n", n, word, n
            printf "<integer name=\"count_%d\">%d</integer>\n", n, n * step
            printf "<array name=\"list_%d\"><item>%d</item><item>@string/text_%d</item></array>\n", n, n, n
            printf "<style name=\"style_%d\"%s>", n, n ? "" : " parent=\"\""
            printf "<item name=\"attribute_%d\">%d</item></style>\n", n, n + step
            if (step == 1) printf "<attr name=\"attribute_%d\" format=\"integer\"/>\n", n
        }
        print "</resources>" }' >"res/$1/values.xml"
}
values values 1 text
values values-de 7 Text
values values-night 5 dark
values values-v27 3 late
echo '<manifest package="com.example.thin"><application/></manifest>' >AndroidManifest.xml
aapt2 compile --dir res -o compiled.zip || missing "a working aapt2"
for form in dense sparse; do
    option=
    [ $form = dense ] || option=--enable-sparse-encoding
    aapt2 link $option -I "$apk" --min-sdk-version 26 --manifest AndroidManifest.xml -o $form.apk compiled.zip || missing "a working aapt2"
    python3 -c 'import sys, zipfile; sys.stdout.buffer.write(zipfile.ZipFile(sys.argv[1]).read("resources.arsc"))' \
        $form.apk >$form.arsc || exit 2
done
cmp -s dense.arsc sparse.arsc && missing "an aapt2 that writes sparse types"
[ -z "$folder" ] || cp dense.arsc sparse.arsc "$folder"
sh "$here/same_tables.sh" "$program" dense.arsc sparse.arsc
