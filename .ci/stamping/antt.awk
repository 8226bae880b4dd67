# What the readers of .antt files share. Who uses it sets in_comment to 0 where a file begins.

# a line without its comments
function bare(line) {
    if (in_comment) { if (!sub(/^.*-\}/, "", line)) { return "" } in_comment = 0 }
    while (match(line, /\{-([^-]|-[^}])*-\}/)) { line = substr(line, 1, RSTART - 1) substr(line, RSTART + RLENGTH) }
    if (sub(/\{-.*/, "", line)) { in_comment = 1 }
    sub(/(^| )--( .*)?$/, "", line)
    sub(/[ \t\r]+$/, "", line)
    return line
}

# a line without `pub` and what else stands before a name
function unmarked(text) {
    sub(/^ */, "", text)
    while (text ~ /^(pub|abbrev|unfoldable|opaque|instance) /) { sub(/^[a-z]+ /, "", text) }
    return text
}

# what a `use` line takes, a line for each in the arrays: taken_of[1..n] is the module, taken_as[1..n] the name here, taken_what[1..n] what it is of
# the module, or nothing where it is the module itself; 0 if the line has another form
function taken(line,  of, n, k, word) {
    if (line !~ /^use [^ {}]+\.\{[^{}]*\}$/ && line !~ /^use [^ {}]+ as [^ {}]+$/) { return 0 }
    sub(/^use /, "", line)
    if (line ~ / as [^ {}]+$/) {
        split(line, word, " ")
        taken_of[1] = word[1]; taken_as[1] = word[3]; taken_what[1] = ""
        return 1
    }
    of = line; sub(/\.\{.*/, "", of)
    sub(/^[^{]*\{/, "", line); sub(/\}$/, "", line)
    n = split(line, word, ",")
    for (k = 1; k <= n; k++) {
        sub(/^ +/, "", word[k]); sub(/ +$/, "", word[k])
        taken_of[k] = of; taken_what[k] = word[k]; taken_as[k] = word[k]
        if (word[k] ~ / /) { sub(/ .*/, "", taken_what[k]); sub(/.* /, "", taken_as[k]) }
    }
    return n
}
