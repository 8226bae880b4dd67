# Reads docs/STAMP.md and asks of everything in backquotes there whether it exists. How it is written:
#   `crate/specs/File`, `crate/proofs/File`   a file; so is `crate/src/file.rt`, and `crates/crate` is a folder
#   `.ci/name`                                a file, too
#   `crate::module::function`                 a public function, and `fb_name` an exported one or a theorem, wherever they stand: in a text, a title or any
#                                             table, also without backquotes (named_functions); in backquotes a theorem is held as any
#   `Name` in `crate/specs/File`              a definition that stands in that file, also with arguments; `Name` there: in the file before it;
#                                             in a column "definition" a name with no file stands in the function's own crate
#   (`edit`), (`edit` in `crate`)             in a table of functions: a must-fail edit of the function's own crate, or of that crate
#   witness `name`, witnesses `a`, `b`        a theorem of the line's own crate
#   `some_NAME_name`                          in a table of theorems: one for each exported function
#   `some_name` elsewhere                     what it is goes by what there is: a must-fail edit of the line's own crate, or of `crate` in `some_name` in `crate`;
#                                             a function; else a theorem, in the file behind it, `some_name` (`crate/proofs/File`), or else
#                                             wherever it stands; else a definition
# An exception says why, in more than a word. A table begins with the titles of its kind, so that no row is taken for them. No line is hidden in a
# comment, and every backquote has its other one: else what is cited would be read otherwise than it is shown.
# Any other name must be declared somewhere. Names that stand in one clause, up to a `;` or the end of their brackets, share the file or the
# crate that is named behind them.
function cite(kind, name, crates, file,  word, n, k) {
    names_cited++
    n = split(name, word, " ")
    for (k = 2; k <= n; k++) { if (word[k] ~ /^[A-Za-z]/ && !(word[k] in known)) { wrong(word[k] " is declared nowhere") } }
    name = word[1]
    if (kind == "definition" && row_of != "") {
        in_row(name, crates, file)
        for (k = 2; k <= n; k++) { in_row(word[k], crates, file) }
        if (word[2] ~ /^[0-9]/) { row_numbers[row_of, name] = row_numbers[row_of, name] "," word[2] }
    }
    if (kind == "edit") { cite_edit(name, crates) }
    else if (kind == "definition") { cite_declared("definition", name, crates, file == "" ? "specs" : file) }
    else if (kind == "witness") { cite_declared("theorem", name, crates, file == "" ? "proofs" : file) }
    else if (kind == "theorem") {
        if (crates != "") { cite_declared("theorem", name, crates, file == "" ? "proofs" : file) }
        else if (!(name in theorem)) { wrong(name " is no theorem of any crate") }
    }
    else if (kind == "function or edit") {
        if (has_edit(name, crates)) { cite_edit(name, crates) }
        else if (!(name in any_function) && !((name in defined) && !(name in edit_name))) { wrong(name " is no function, and no must-fail edit of " of_where(crates, "must-fail")) }
    }
    else if (!(name in known)) { wrong(name " is declared nowhere") }
}

# a definition that the line of a function names in its column "definition", and the first of them
function in_row(name, crates, file,  one, n, k) {
    n = split(crates, one, ",")
    for (k = 1; k <= n; k++) {
        if (name !~ /^[A-Za-z]/) { continue }
        row_names[row_of, one[k], file == "" ? "specs" : file, name] = 1
        row_list[row_of] = row_list[row_of] "\n" one[k] SUBSEP (file == "" ? "specs" : file) SUBSEP name
        if (!(row_of in row_first)) { row_first[row_of] = one[k] SUBSEP (file == "" ? "specs" : file) SUBSEP name; row_first_name[row_of] = name }
    }
}

function of_where(crates, file) { return crates == "" ? "a crate that is named with it" : crates "/" file }

function cite_declared(what, name, crates, file) {
    if (!stands(crates, file, name)) { wrong(name " is no " what " of " of_where(crates, file)) }
}

function has_edit(name, crates,  one, n, k) {
    n = split(crates, one, ",")
    for (k = 1; k <= n; k++) { if ((one[k], name) in edit) { return 1 } }
    return 0
}

function cite_edit(name, crates,  one, n, k) {
    edits_cited++
    n = split(crates, one, ",")
    for (k = 1; k <= n; k++) { if ((one[k], name) in edit) { cited[one[k], name] = 1 } }
    if (!has_edit(name, crates)) { wrong(name " is no must-fail edit of " of_where(crates, "must-fail")) }
}

# whether a name, not a field's, stands in a file of one of the crates, or in any file of its `specs` or `proofs`
function stands(crates, file, name,  one, n, k) {
    n = split(crates, one, ",")
    for (k = 1; k <= n; k++) { if ((one[k], file, name) in declared) { return 1 } }
    return 0
}

# a function that is named, in a row or between, is there: `crate::module::function` public, `fb_name` exported
function named_functions(line,  name) {
    place = FNR
    while (match(line, /[a-z][A-Za-z0-9_]*(::[A-Za-z0-9_]+)+/)) {
        name = substr(line, RSTART, RLENGTH)
        if (!(name in is_public)) { wrong(name " is no public function") }
        line = substr(line, 1, RSTART - 1) " " substr(line, RSTART + RLENGTH)
    }
    while (match(line, /(^|[^A-Za-z0-9_-])fb_[A-Za-z0-9_]*/)) {
        name = substr(line, RSTART, RLENGTH); sub(/^.*fb_/, "fb_", name)
        if (!(name in exported) && !(name in theorem) && name !~ /NAME/) { wrong(name " is no exported function") }
        line = substr(line, RSTART + RLENGTH)
    }
}

function wrong(what) { complain("docs/STAMP.md:" place ": " what) }

# ---- the names of a text, with those that wait for what stands behind them

function walk(text, mode, crates,  part, n, k) {
    n = split(text, part, "`")
    if (n % 2 == 0) { wrong("a backquote without its other one") }
    deep = 0; waiting = 0; witnessed = 0
    for (k = 1; k <= n; k++) {
        if (k % 2) { between(part[k], crates) } else { named_in(part[k], part[k - 1], mode) }
    }
    deep = -1
    let_go(crates)
}

function between(text, crates,  k, one) {
    if (text ~ /^ there([^a-z]|$)/) { bind(there_crate, there_file, deep) }
    witnessed = text ~ /witness(es)? $/ || (witnessed && text ~ /^(, | and )$/)
    for (k = 1; k <= length(text); k++) {
        one = substr(text, k, 1)
        if (one == "(") { deep++ }
        else if (one == ")") { deep--; let_go(crates) }
        else if (one == ";" || ((one == ":" || one == ".") && substr(text, k + 1, 1) ~ /^ ?$/)) { deep--; let_go(crates); deep++ }
    }
}

# those that wait deeper than the text now stands have the line's own crates; a theorem may stand in any
function let_go(crates,  k, kept) {
    kept = 0
    for (k = 1; k <= waiting; k++) {
        if (wait_deep[k] > deep) { cite(wait_kind[k], wait_name[k], wait_kind[k] == "theorem" ? "" : crates, "") } else { keep(++kept, k) }
    }
    waiting = kept
}

function keep(at, k) { wait_deep[at] = wait_deep[k]; wait_kind[at] = wait_kind[k]; wait_name[at] = wait_name[k] }

# those that wait so deep stand in this crate and file
function bind(crate, file, at,  k, kind, kept) {
    kept = 0
    for (k = 1; k <= waiting; k++) {
        if (wait_deep[k] != at) { keep(++kept, k); continue }
        kind = wait_kind[k]
        if (kind == "word" && file ~ /^specs/) { kind = "definition" }
        if (kind ~ /edit/ && file != "") { keep(++kept, k) } else { cite(kind, wait_name[k], crate, file) }
    }
    waiting = kept
}

function named_in(name, before, mode,  crate, file) {
    if (name ~ /^\.ci\//) { if (!(name in tool)) { wrong("there is no " name) } return }
    if (name ~ /^proofs\/[A-Za-z]+\.antt$/ || name ~ /^(requires|ensures)$/ || name ~ /\|/) { return }
    if (name ~ /^crates\//) { if (!(substr(name, 8) in folder)) { wrong("there is no " name) } return }
    if (name ~ /\//) {
        crate = name; sub(/\/.*/, "", crate); file = name; sub(/^[^\/]*\//, "", file)
        if (!((crate, file) in file_of)) { wrong("there is no crates/" name (name ~ /\.rt$/ ? "" : ".antt")) }
        there_crate = crate; there_file = file
        if (before ~ /(^| )in $/) { bind(crate, file, deep) } else if (before ~ /\($/) { bind(crate, file, deep - 1) }
    } else if (name ~ /::/ || name in exported) {
        return
    } else if (waiting > 0 && wait_deep[waiting] == deep && before ~ /(^| )(in|of) $/ && name in listed) {
        bind(name, "", deep)
    } else if (before ~ /(^| )in $/ && (name in listed || name in any_function)) {
        return
    } else {
        waiting++
        wait_name[waiting] = name; wait_deep[waiting] = deep
        wait_kind[waiting] = kind_of(name, before, mode)
    }
}

function kind_of(name, before, mode) {
    if (witnessed) { return "witness" }
    if (mode == "ruled out" || (mode == "definition" && deep > 0)) { return is_theorem(name) && !(name in edit_name) ? "theorem" : "edit" }
    if (mode == "definition") { return before ~ /the kit's $/ ? "word" : is_theorem(name) && !(name in defined) ? "theorem" : "definition" }
    if (name !~ /^[a-z0-9]+(_[a-z0-9]+)+$/) { return "word" }
    return name in edit_name || name in any_function ? "function or edit" : is_theorem(name) ? "theorem" : name in defined ? "word" : "function or edit"
}

# a theorem's name has several words
function is_theorem(name) { return name in theorem && name ~ /_/ }

# ---- the lines

function trimmed(text) { sub(/^ +/, "", text); sub(/ +$/, "", text); return text }

function end_paragraph() {
    if (paragraph == "") { return }
    place = paragraph_place
    walk(paragraph, "plain", "")
    paragraph = ""
}

function read_row(line,  cell, n, k) {
    sub(/^\| */, "", line); sub(/ *\|$/, "", line)
    n = split(line, cell, "|")
    for (k = 1; k <= n; k++) { cell[k] = trimmed(cell[k]) }
    place = FNR
    if (cell[1] == "exception") { read_exception(cell[2], cell[3]); return }
    if (header == "") { header = line; for (k = 1; k <= n; k++) { title[k] = cell[k] } titles = n; hold_titles(); return }
    if (n != titles) { wrong("the line has " n " columns, its table " titles); return }
    if (title[1] == "function") { read_function_line(cell, n) }
    else if (title[1] == "name") { read_theorem_line(cell[1], cell[2], cell[3]) }
    else if (title[1] == "demand") { read_theorem_line(cell[3], cell[2], cell[1]) }
    else if (title[1] == "build") { for (k = 1; k <= n; k++) { walk(cell[k], "plain", "") } }
}

# the titles of a table, by its first
function hold_titles(  k, may) {
    if (title[1] == "function") { may = "^(definition|unique|refuses exactly if|ruled out, .*)$" }
    else if (title[1] == "name") { may = "^(where|says)$" }
    else if (title[1] == "demand") { may = "^(file|theorems)$" }
    else if (title[1] == "build") { may = "^(clause|witness at a named input|edit)$" }
    else { wrong("a table of another kind: its first column is " title[1]); return }
    for (k = 2; k <= titles; k++) { if (title[k] !~ may) { wrong("a column of another kind: " title[k]) } }
}

# a reason is more than a word
function read_exception(name, why) {
    gsub(/`/, "", name)
    exception[name] = 1; exceptions++
    if (!(name in is_public)) { wrong("an exception for " name ", which is no public function") }
    if (why !~ /[A-Za-z][A-Za-z]+[^A-Za-z]+[A-Za-z]/) { wrong("the exception for " name " has no reason") }
}

function read_function_line(cell, n,  name, crate, k, before) {
    name = cell[1]
    if (name !~ /^`[^`]+`$/) { wrong("the first column is not a function in backquotes: " name); return }
    gsub(/`/, "", name)
    crate = name; sub(/::.*/, "", crate)
    if (name in line_of) { wrong(name " has two lines") }
    line_of[name] = FNR
    if (!(name in is_public)) { wrong("a line for " name ", which is no public function") }
    for (k = 2; k <= n; k++) {
        before = edits_cited
        if (title[k] == "unique") { unique_cell[name] = cell[k] }
        else if (title[k] == "definition") { definition_cell[name] = cell[k]; row_of = name; walk(cell[k], "definition", crate); row_of = "" }
        else if (title[k] == "refuses exactly if") { refuses_cell[name] = cell[k]; walk(cell[k], "plain", crate) }
        else if (title[k] ~ /^ruled out/) { walk(cell[k], "ruled out", crate); ruled_out[name] = edits_cited - before }
    }
}

# a theorem stands in one of the files of its line, and each of these has one of the line
function read_theorem_line(names_cell, where_cell, says_cell,  part, n, k, name, names, where, crates, file, used, found, m, crate) {
    names = split_names(names_cell, name); names_cited += names
    walk(where_cell, "plain", "")
    n = split(where_cell, part, "`"); m = 0; crates = ""
    for (k = 2; k <= n; k += 2) { if (part[k] ~ /\/proofs\//) {
        where[++m] = part[k]; crate = part[k]; sub(/\/.*/, "", crate)
        crates = crates (crates == "" ? "" : ",") crate
    } }
    if (names == 0 || m == 0) { wrong("a line of theorems without a name or without a file"); return }
    for (k = 1; k <= names; k++) {
        found = 0
        for (n = 1; n <= m; n++) {
            crate = where[n]; sub(/\/.*/, "", crate); file = where[n]; sub(/^[^\/]*\//, "", file)
            if (stands(crate, file, name[k])) { found = 1; used[n] = 1 }
        }
        if (!found) { wrong(name[k] " is no theorem of " where_cell) }
    }
    for (n = 1; n <= m; n++) { if (!used[n]) { wrong("no theorem of this line stands in " where[n]) } }
    walk(says_cell, "plain", crates)
}

function split_names(text, name,  part, n, k, m, function_name, one) {
    n = split(text, part, "`"); m = 0
    for (k = 2; k <= n; k += 2) {
        if (part[k] !~ /NAME/) { name[++m] = part[k]; continue }
        for (function_name in exported) {
            one = function_name; sub(/^fb_/, "", one)
            name[++m] = part[k]; sub(/NAME/, one, name[m])
        }
    }
    return m
}

FNR == 1 { reading_list = FILENAME ~ /STAMP\.md$/ }
reading_list {
    named_functions($0)
    if (index($0, "<!--")) { wrong("a comment, in which nothing is shown") }
}
reading_list && /^\|/ {
    end_paragraph()
    if ($0 !~ /^\|---/) { read_row($0) }
    next
}
reading_list {
    header = ""
    if ($0 ~ /^ *$/) { end_paragraph(); next }
    if ($0 ~ /^#/) { end_paragraph(); place = FNR; walk($0, "plain", ""); next }
    if (paragraph == "") { paragraph_place = FNR; paragraph = $0 } else { paragraph = paragraph " " $0 }
}
