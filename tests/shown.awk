# awk -f shown.awk SHOWN PRINTED: fails where what a page shows is not what a command printed. The lines that are
# shown stand in the output in their order, with nothing between them; a line '..' stands for one or more lines
# that are left out. So what is shown comes in parts: the output begins with the first and ends with the last.

# Texts begin with a line feed here, so that a part is found at the start of a line alone.
BEGIN { last = 0; part[0] = "\n"; printed = "\n" }
FILENAME == ARGV[1] && $0 == ".." { part[++last] = "\n"; next }
FILENAME == ARGV[1] { part[last] = part[last] $0 "\n"; next }
{ printed = printed $0 "\n" }

END {
    for (n = 0; n <= last; n++) {
        if (n > 0) sub(/^\n[^\n]*/, "", printed)
        size = length(part[n])
        at = n == last ? length(printed) - size + 1 : index(printed, part[n])
        if (at < 1 || (n == 0 && at > 1) || substr(printed, at, size) != part[n]) {
            print "not printed there:" part[n]
            exit 1
        }
        printed = substr(printed, at + size - 1)
    }
}
