# What the definitions of crates/*/specs/*.antt are made of, a line each, fields parted by tabs. With antt.awk.
#   comes_to  crate, `specs/FILE` and name of a definition; crate, `specs/FILE` and name of another that stands in it: in its type, its rows or its fields
# A name is another file's definition if this file takes it of there (or its module, as in `paper.sad`), else its own.
function end_file(  at, part, word, n, k, qualified) {
    for (at in text) {
        n = split(text[at], word, " ")
        for (k = 1; k <= n; k++) {
            # (a field's name stands behind its value's)
            if (split(word[k], qualified, ".") > 1 && !(qualified[1] in of_module)) { word[k] = qualified[1] }
            if (word[k] == at || seen[at, word[k]]++) { continue }
            if (word[k] in text) { print "comes_to", crate, file, at, crate, file, word[k] }
            else if (word[k] in of_file) { print "comes_to", crate, file, at, of_file[word[k]], word[k] }
            else if (split(word[k], qualified, ".") == 2 && qualified[1] in of_module) { print "comes_to", crate, file, at, of_module[qualified[1]], qualified[2] }
        }
    }
    split("", text); split("", of_file); split("", of_module); split("", seen)
}

# a file of specs/ by its module
function specs_file(module,  of, name) {
    if (module !~ /^Rattle\.[a-z0-9_]+\.specs\.[A-Za-z0-9]+$/) { return "" }
    of = module; sub(/^Rattle\./, "", of); sub(/\.specs\..*/, "", of)
    name = module; sub(/.*\./, "", name)
    return of OFS "specs/" name
}

BEGIN { OFS = "\t" }
FNR == 1 {
    end_file()
    split(FILENAME, part, "/")
    crate = part[2]; file = "specs/" part[4]; sub(/\.antt$/, "", file)
    in_comment = 0; now_name = ""
}
{
    line = bare($0)
    if (line == "") { next }
    if (line ~ /^use /) {
        n = taken(line)
        for (k = 1; k <= n; k++) {
            at = specs_file(taken_of[k])
            if (at != "") { if (taken_what[k] == "") { of_module[taken_as[k]] = at } else if (taken_what[k] == taken_as[k]) { of_file[taken_as[k]] = at } }
        }
        next
    }
    if (line ~ /^[^ ]/) {
        now_name = unmarked(line); sub(/^(record|data) /, "", now_name); sub(/ .*/, "", now_name)
    }
    if (now_name == "" || now_name !~ /^[A-Za-z]/) { next }
    gsub(/[^A-Za-z0-9_.\047-]+/, " ", line); gsub(/ \./, " ", line); gsub(/\. /, " ", line)
    text[now_name] = text[now_name] " " line
}
END { end_file() }
