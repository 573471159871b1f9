#!/bin/sh
# Times `restool query` of all resources of Android's framework by their names, beside the same by their ids, both from a file;
# what is printed has to be the same. Then `restool map` of the table with itself.
# Each command runs three times; the least time counts.
#
# The framework's table is that of Debian's package android-framework-res, which is downloaded where it is not installed. Needs
# GNU time (Debian's package time) and python3. Status 2: the framework's table is not to be had.
. "$(dirname "$0")/common.sh"
cd "$work" || exit 1
if ! framework; then
    echo "names.sh: the framework's table is not to be had" >&2
    exit 2
fi
echo '{"density":320}' >device
echo '[{"table":"framework.arsc"}]' >layers

# Each resource with its names, from a line such as `  0x01010000 "attr"/"theme" flags ..`.
"$program" dump framework.arsc | sed -n 's|^  \(0x[0-9a-f]*\) "\([^"]*\)"/"\([^"]*\)" flags .*|\1 \2/\3|p' | sort -u >named
cut -d ' ' -f 1 named >ids
cut -d ' ' -f 2 named >names

of_ids=$(seconds "$program" query layers device @ids) || exit 1
mv printed printed_of_ids
of_names=$(seconds "$program" query layers device @names) || exit 1
cmp printed printed_of_ids || exit 1
mapped=$(timed 3 '[[' "$program" map framework.arsc framework.arsc) || exit 1
echo "the framework's table, $(wc -l <names) resources:"
echo "  query by ids   $of_ids s"
echo "  query by names $of_names s"
echo "  map to itself  $mapped MB: $(grep -c '"0x' printed) pairs"
