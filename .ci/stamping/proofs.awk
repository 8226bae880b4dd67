# What crates/*/specs/*.antt and crates/*/proofs/*.antt declare, a line each, fields parted by tabs. With antt.awk.
#   declared  crate, `specs/FILE` or `proofs/FILE`, name, `field` of a record or `name`, `pub` or -
#   reading   crate, `Unique` or `Refuses`: the file of proofs/, what it takes, `Kinds` or `Reads`, the name that it has there
#   taken     crate, `Unique` or `Refuses`, a name that this file takes, the module that it takes it of
#   unique    crate, name of a theorem of proofs/Unique.antt that stands under no assumption, the names whose `ps`, `r` and `Learnt` it is about,
#             the outputs that it sees, by their places, and what else stands where it says what is seen: nothing, or `tt` if it sees no
#             output; `?` if the statement has another form
#   refuses   crate, name of such a theorem of proofs/Refuses.antt, the same three names, the tests that it names, what tells of the answer; `?` in the
#             place of the tests if the statement has another form
#   form      `Unique` or `RefusesExactlyIf`, all that unique/specs/Unique or refusal/specs/Refuses says besides what it takes
#   tells     crate, file of specs/, the name of an `abbrev pub NAME : RESULT → Verdict Refusal`, RESULT, and - if each of its rows says `pass`, but that
#             of `Refused r`, which says `stop r`; else the row that does not
# The form of a refusal's theorem: NAME_refuses_exactly_if : RefusesExactlyIf n KINDS.ps KINDS.r READS.Learnt (λ κs a. TESTS ARGS) (λ κs x. TELLS x), each of
# ARGS being an argument of the call, `a.1.0`, what it holds, `a.1.0.now`, or how long that is, `(length a.1.0.now)`.
function no_word(a) { return a == "" ? "-" : a }

function state(text,  name) {
    name = text; sub(/^ *pub /, "", name); sub(/ :.*/, "", name)
    sub(/^ *pub [^ ]+ : */, "", text); gsub(/[ \t]+/, " ", text); sub(/ $/, "", text)
    if (statement_file == "proofs/Unique") { state_unique(name, text) } else { state_refuses(name, text) }
}

# "e.1.1.0.now" is the parameter at place 2 at exit
function state_unique(name, text,  word, at, seen, left, one, count, places) {
    split(text, word, " ")
    if (text !~ /^Unique [0-9]+ [^ ()]+\.ps [^ ()]+\.r [^ ()]+\.Learnt \(/ || !(at = last_of(text, "(λ ")) || text !~ /\)$/) {
        print "unique", crate, name, "-", "-", "-", "-", "?"
        return
    }
    seen = substr(text, at)
    left = seen; sub(/\. .*/, "", left); sub(/.* /, "", left)
    sub(/^[^.]*\. /, "", seen); sub(/\)$/, "", seen)
    split("", count)
    seen = " " seen
    while (match(seen, "[^A-Za-z0-9_.]" left "(\\.1)*\\.0\\.now")) {
        one = substr(seen, RSTART, RLENGTH)
        count[gsub(/\.1/, "", one)]++
        seen = substr(seen, 1, RSTART) substr(seen, RSTART + RLENGTH)
    }
    places = ""
    for (at = 0; at < 64; at++) { while (count[at]-- > 0) { places = places (places == "" ? "" : ",") at } }
    # what holds them together: pairs, or a record with its fields
    gsub(/record \{/, "", seen); gsub(/[A-Za-z][A-Za-z0-9_]* =/, "", seen); gsub(/[(){},; ]/, "", seen)
    for (at = 3; at <= 5; at++) { sub(/\.(ps|r|Learnt)$/, "", word[at]) }
    print "unique", crate, name, word[3], word[4], word[5], no_word(places), no_word(seen)
}

# a.1.1.0 is the argument at place 2
function state_refuses(name, text,  word, part, tests, tells, argument) {
    split(text, word, " ")
    argument = "a(\\.1)*\\.0"
    if (text ~ /^RefusesExactlyIf [0-9]+ [^ ()]+\.ps [^ ()]+\.r [^ ()]+\.Learnt \(λ κs a\. .*\) \(λ κs x\. [^ ()]+ x\)$/) {
        tests = text; sub(/^[^(]*\(λ κs a\. /, "", tests); sub(/\) \(λ κs x\. [^ ()]+ x\)$/, "", tests)
        tells = text; sub(/^.* \(λ κs x\. /, "", tells); sub(/ x\)$/, "", tells)
        gsub(" \\(length " argument "\\.now\\)", "", tests); gsub(" " argument "\\.now", "", tests); gsub(" " argument, "", tests)
    }
    if (tests == "" || tests ~ /[ ()]/) { print "refuses", crate, name, "-", "-", "-", "?", "-"; return }
    for (part = 3; part <= 5; part++) { sub(/\.(ps|r|Learnt)$/, "", word[part]) }
    print "refuses", crate, name, word[3], word[4], word[5], tests, tells
}

# what the rows of a telling definition say, where its file ends
function end_file(  name) {
    if (statement != "") { state(statement); statement = "" }
    for (name in result_of) {
        if (bad_row[name] == "" && !(name in stopped)) { bad_row[name] = "there is no row of Err r" }
        print "tells", crate, file, name, result_of[name], no_word(bad_row[name])
    }
    split("", result_of); split("", bad_row); split("", stopped)
    if (form != "") { print "form", (crate == "unique" ? "Unique" : "RefusesExactlyIf"), form; form = "" }
}

function telling(line,  word, pattern, says, constructor) {
    if (line ~ /^abbrev pub [^ ]+ : \{T : Type 0\} → Result T Refusal → Verdict Refusal$/) { split(line, word, " "); result_of[word[3]] = "Result"; return }
    split(line, word, " ")
    if (!(word[1] in result_of)) { return }
    pattern = line; sub(/^[^ ]+ /, "", pattern); sub(/ = .*/, "", pattern); says = line; sub(/.* = /, "", says)
    constructor = pattern; sub(/^\(/, "", constructor); sub(/ .*/, "", constructor); sub(/.*\./, "", constructor)
    if (constructor == "Err" && pattern ~ / r\)$/ && says == "stop r") { stopped[word[1]] = 1 }
    else if (constructor != "Ok" || says != "pass") { bad_row[word[1]] = line }
}

function last_of(text, part,  at, found) {
    found = 0
    while ((at = index(substr(text, found + 1), part)) > 0) { found += at }
    return found
}

BEGIN { OFS = "\t" }
FNR == 1 {
    end_file()
    split(FILENAME, part, "/")
    crate = part[2]
    file = FILENAME
    sub(/^crates\/[^\/]*\//, "", file); sub(/\.antt$/, "", file)
    in_record = -1; in_comment = 0
}
{
    line = bare($0)
    if (line ~ /^[ \t]*$/) { next }

    match(line, /^ */); indent = RLENGTH
    if (indent <= in_record) { in_record = -1 }
    # a statement goes on up to the margin, over empty lines too
    if (statement != "") { if (indent == 0) { state(statement); statement = "" } else { statement = statement " " line } }
    if (indent == 0 && file ~ /^specs\//) { telling(line) }
    if ((crate == "unique" && file == "specs/Unique" || crate == "refusal" && file == "specs/Refuses") && line !~ /^use /) { form = form (form == "" ? "" : " ") substr(line, indent + 1) }
    text = substr(line, indent + 1)
    while (text ~ /^(abbrev|unfoldable|opaque|instance) /) { sub(/^[a-z]+ /, "", text) }
    public = sub(/^pub /, "", text) ? "pub" : "-"
    while (text ~ /^(abbrev|unfoldable|opaque|instance) /) { sub(/^[a-z]+ /, "", text) }
    if (text ~ /^(record|data) [^{]/) {
        split(text, word, " ")
        print "declared", crate, file, word[2], "name", public
        in_record = indent
    } else if (match(text, /^[^ (){}]+( \{[^}]*\})? :( |$)/) && text !~ /^(let|module|use|mod|λ|in) /) {
        split(text, word, " ")
        if (public == "pub" || indent == 0 || in_record >= 0) { print "declared", crate, file, word[1], (in_record >= 0 ? "field" : "name"), public }
        if (public == "pub" && indent == 0 && ((file == "proofs/Unique" && word[1] ~ /_unique$/) || (file == "proofs/Refuses" && word[1] ~ /_refuses_exactly_if$/))) {
            statement = line; statement_file = file
        }
    }
    if ((file == "proofs/Unique" || file == "proofs/Refuses") && indent == 0 && line ~ /^use /) {
        of_file = substr(file, 8); n = taken(line)
        for (k = 1; k <= n; k++) {
            if (taken_what[k] == "" && taken_of[k] ~ /\.(Kinds|Reads)$/) {
                what = taken_of[k]; kind = (what ~ /\.Kinds$/ ? "Kinds" : "Reads"); sub(/\.(Kinds|Reads)$/, "", what)
                print "reading", crate, of_file, what, kind, taken_as[k]
            } else { print "taken", crate, of_file, taken_as[k], taken_of[k] (taken_what[k] == taken_as[k] ? "" : "." taken_what[k]) }
        }
    }
}
END { end_file() }
