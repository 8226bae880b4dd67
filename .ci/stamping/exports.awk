# Which exported functions include/fleecebutton.h, tests/peer/peer.c and tests/differential/src know, a line each, fields parted by tabs:
#   knows   header, peer or differential, name
#   helper  a name that the header defines itself
#   names   file, any string of tests/differential/src that begins with fb_
function uncommented(line,  at) {
    if (in_comment) {
        at = index(line, "*/")
        if (at == 0) { return "" }
        in_comment = 0
        line = substr(line, at + 2)
    }
    while ((at = index(line, "/*")) > 0) {
        if (index(substr(line, at + 2), "*/") == 0) { in_comment = 1; return substr(line, 1, at - 1) }
        line = substr(line, 1, at - 1) " " substr(line, at + 3 + index(substr(line, at + 2), "*/"))
    }
    at = index(line, "//")
    return at ? substr(line, 1, at - 1) : line
}

BEGIN { OFS = "\t" }
FNR == 1 { in_comment = 0; held = 0 }
{ line = uncommented($0) }
FILENAME ~ /\.[ch]$/ {
    if (line ~ /^static /) { held = 1 } else if (line ~ /^[^ \t]/) { held = 0 }
    while (match(line, /(^|[^A-Za-z0-9_])fb_[A-Za-z0-9_]+ *\(/)) {
        name = substr(line, RSTART, RLENGTH)
        gsub(/[^A-Za-z0-9_]/, "", name)
        if (FILENAME ~ /\.c$/) { print "knows", "peer", name } else if (held) { print "helper", name } else { print "knows", "header", name }
        line = substr(line, RSTART + RLENGTH)
    }
}
FILENAME ~ /\.rs$/ {
    while (match(line, /"fb_[A-Za-z0-9_]+"/)) {
        name = substr(line, RSTART + 1, RLENGTH - 2)
        if (FILENAME ~ /\/functions\.rs$/ && substr(line, 1, RSTART - 1) ~ /name: *$/) { print "knows", "differential", name }
        print "names", FILENAME, name
        line = substr(line, RSTART + RLENGTH)
    }
}
