#!/bin/sh
# Makes restool-VERSION-linux-x86_64.tar.gz and restool_VERSION_amd64.deb, and prints their paths: package.sh [FOLDER]
#
# FOLDER is where they go; out/ of the repository if it is left out. The first has the program, built here or prebuilt, and
# what proved it, the README, docs, schemas and examples, tools/review.py, the repository's licence files, and SHA256SUMS with
# the checksums of all these. The second has the same for Debian's apt, with a manual page and what shells complete, both made
# from the program's help; tools/review.py is the command restool-review there. The same files give the same bytes. Needs GNU
# tar and gzip, and for the second dpkg-deb and python3: where they are missing it says so, and makes the first alone.
here=$(CDPATH='' cd "$(dirname "$0")/.." && pwd) || exit 1
. "$here/tools/program.sh"
stop() {
    echo "package.sh: $1" >&2
    exit 1
}
choose_program || stop "no program is of these sources: ./restool proves and builds it"
proved_with=$(dirname "$program")/proved-with
[ -s "$proved_with" ] || stop "no file says what proved the program: ./restool writes it"
version=$("$program" --version) || stop "the program does not say its version"
name=restool-${version#restool }-linux-x86_64
mkdir -p "${1:-$here/out}" && folder=$(CDPATH='' cd "${1:-$here/out}" && pwd) || exit 1
work=$(mktemp -d) || exit 1
trap 'rm -rf "$work"' EXIT
mkdir "$work/$name" && cp "$program" "$proved_with" "$work/$name" || exit 1

cd "$here" || exit 1
set -- README.md docs schemas examples tools/review.py
licence='The repository that this package is made of has no licence file.'
for file in LICEN[CS]E* COPYING* NOTICE*; do
    if [ -f "$file" ]; then
        set -- "$@" "$file"
        licence=
    fi
done
# what an example has built is in its out/
tar -cf - --exclude=out "$@" | tar -xf - -C "$work/$name" || exit 1

cd "$work/$name" || exit 1
[ -z "$licence" ] || printf '\n%s\n' "$licence" >>README.md
find . -type f -printf '%P\0' | LC_ALL=C sort -z | xargs -0 sha256sum >"$work/sums" && mv "$work/sums" SHA256SUMS || exit 1
tar -C "$work" -cf "$work/$name.tar" --format=ustar --sort=name --mtime=@315532800 --owner=0 --group=0 --numeric-owner \
    --mode=u=rwX,go=rX "$name" || exit 1
gzip -9n "$work/$name.tar" && cp "$work/$name.tar.gz" "$folder/.$name" && mv "$folder/.$name" "$folder/$name.tar.gz" || exit 1
echo "$folder/$name.tar.gz"

# ---- for apt
for tool in dpkg-deb python3; do
    if ! command -v "$tool" >/dev/null; then
        echo "package.sh: no .deb without $tool" >&2
        exit 0
    fi
done
deb=restool_${version#restool }_amd64
root=$work/$deb
doc=$root/usr/share/doc/restool
umask 022
mkdir -p "$root/DEBIAN" "$root/usr/bin" "$doc" "$root/usr/share/man/man1" "$root/usr/share/bash-completion/completions" \
    "$root/usr/share/zsh/vendor-completions" "$root/usr/share/fish/vendor_completions.d" || exit 1
mv "$work/$name/restool" "$root/usr/bin/restool" && mv "$work/$name/tools/review.py" "$root/usr/bin/restool-review" &&
    rmdir "$work/$name/tools" && rm "$work/$name/SHA256SUMS" && cp -R "$work/$name/." "$doc" || exit 1

# completes SHELL FILE: writes what a shell completes.
completes() {
    python3 "$here/tools/completions.py" "$root/usr/bin/restool" "$1" >"$root/usr/share/$2"
}
completes bash bash-completion/completions/restool && completes zsh zsh/vendor-completions/_restool &&
    completes fish fish/vendor_completions.d/restool.fish || exit 1
printf '%s\n' "${licence:-The licence stands in the files beside this one.}" >"$doc/copyright"
page=$root/usr/share/man/man1/restool.1
python3 "$here/tools/man_page.py" "$root/usr/bin/restool" >"$page" && gzip -9n "$page" || exit 1
cat >"$root/DEBIAN/control" <<END
Package: restool
Version: ${version#restool }
Architecture: amd64
Maintainer: The maintainers of restool <maintainers@users.noreply.mirkhaot.example>
Depends: libc6 (>= 2.34)
Suggests: python3
Section: devel
Priority: optional
Installed-Size: $(find "$root/usr" -type f -printf '%s\n' | awk '{ sum += int(($1 + 1023) / 1024) } END { print sum }')
Description: reads Android's compiled resource tables
 It says which value a device loads and why each candidate won or lost, and
 certifies such answers for whole boxes of devices, by the rules of Android 8.1.
END
chmod -R u=rwX,go=rX "$root" && find "$root" -exec touch -h -d @315532800 {} + || exit 1
SOURCE_DATE_EPOCH=315532800 dpkg-deb --root-owner-group -Zgzip -z9 --build "$root" "$work/$deb.deb" >/dev/null || exit 1
cp "$work/$deb.deb" "$folder/.$deb" && mv "$folder/.$deb" "$folder/$deb.deb" || exit 1
echo "$folder/$deb.deb"
