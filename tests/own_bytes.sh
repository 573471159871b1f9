#!/bin/sh
# Rows borrow from the input's bytes. So a function cannot return a row of bytes that it owns: the compiler has to
# refuse it, and has to accept the same function where the caller owns them. What the compiler says of it is not read.
# The crates below have to be proved: run ./restool first, as tests/end_to_end.sh does. The environment may give RT, the
# command that proves in place of rt.
here=$(CDPATH='' cd "$(dirname "$0")/.." && pwd) || exit 1
program=$(basename "$0")
rt=${RT:-rt}
. "$here/tools/crates_below.sh"
work=$(mktemp -d) || exit 1
trap 'rm -rf "$work"' EXIT
trap 'exit 130' INT TERM

# Links share the files: rt writes none of these in place.
mkdir -p "$work/crates/own_bytes/src" || exit 1
for crate in $(crates_below "$here/crates.txt" overlay_map type_chunks); do
    cp -al "$here/crates/$crate" "$work/crates/" 2>/dev/null || cp -a "$here/crates/$crate" "$work/crates/" || exit 1
    grep "^${crate}[ :]" "$here/crates.txt" >>"$work/crates.txt"
done
echo 'own_bytes: type_chunks overlay_map' >>"$work/crates.txt"
[ -f "$here/HANDLES" ] && cp "$here/HANDLES" "$work/"

# is_proved BYTES: proves a function that takes its bytes as BYTES.
is_proved() {
    cat >"$work/crates/own_bytes/src/lib.rt" <<END
//! The first row of a table.
#![tactic(auto)]

use overlay_map::Table;
use std::alloc::Global;
use type_chunks::Row;

pub fn first_row<'a>(alloc: Global, bytes: $1) -> Option<Row<'a>> {
    let table = Table::open(alloc, bytes.as_slice()).ok()?;
    table.all_rows().next()
}
END
    (cd "$work/crates/own_bytes" && $rt check) >"$work/answer" 2>&1 </dev/null
}

if ! is_proved "&'a Vec<u8>"; then
    echo "$program: a row of lent bytes is refused:" >&2
    tail -n 5 "$work/answer" >&2
    exit 1
fi
if is_proved 'Vec<u8>'; then
    echo "$program: a row of bytes that are gone is accepted" >&2
    exit 1
fi
head -n 3 "$work/answer"
echo "a row of bytes that a function owns is refused"
