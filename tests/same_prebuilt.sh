#!/bin/sh
# Says of prebuilt/restool whether it is, byte for byte, what was built here. Its status is 1 only where it claims these
# sources and this toolchain, and is not. The program has to be built: run tests/end_to_end.sh.
here=$(CDPATH='' cd "$(dirname "$0")/.." && pwd) || exit 1
. "$here/tools/program.sh"
say() {
    echo "prebuilt: $1"
    exit "${2:-0}"
}
sum=$(sum_of_sources)
if [ ! -x "$prebuilt/restool" ]; then say "missing; tools/prebuilt.sh makes it"; fi
if ! is_prebuilt; then say "of other sources; tools/prebuilt.sh makes it anew"; fi
kit_of_prebuilt=$kit
if ! is_built || ! is_noted; then say "not compared, since nothing says what proved the program that was built here"; fi
if [ "$kit" != "$kit_of_prebuilt" ]; then say "of another toolchain"; fi
if ! cmp "$prebuilt/restool" "$built/restool"; then say "not what these sources build" 1; fi
say "what these sources build"
