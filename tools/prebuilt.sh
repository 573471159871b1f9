#!/bin/sh
# Makes prebuilt/ anew: the program that was built here, byte for byte, and what proved it. If that is not of the sources
# at hand, they are proved and it is built first.
here=$(CDPATH='' cd "$(dirname "$0")/.." && pwd) || exit 1
. "$here/tools/program.sh"
stop() {
    echo "prebuilt.sh: $1" >&2
    exit 1
}
sum=$(sum_of_sources)
if ! is_built || ! is_noted; then prove_program || exit 1; fi
if ! is_noted || [ "$noted" != "$sum" ]; then stop "nothing says that the program is of these sources: they were changed meanwhile, or sha256sum is missing"; fi
rm -rf "$prebuilt" && mkdir "$prebuilt" && cp "$built/restool" "$built/proved-with" "$prebuilt" || exit 1
cat "$prebuilt/proved-with"
