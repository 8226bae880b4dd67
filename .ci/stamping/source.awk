# What crates/*/src/*.rt declare, a line each, fields parted by tabs:
#   function  crate, module path and type, name, `public` or `private`, `exported` or -, `requires` or -, the words of its result's type,
#             the places of the parameters that are outputs (they have a `mut` reference), file, and all that stands between its name and its body
#   cites     crate, module path and type, name of a function; crate, `specs/FILE` and name of a definition of specs/ that stands in one of its `ensures`,
#             and the numbers that stand there directly behind it
#   refusing  a type that holds a `Refusal`, or has a variant `Refused`
#   lending   crate, a type that holds a `mut` reference
#   word      any name that is declared, or used of elsewhere
# A function is public if it has a `pub`, wherever it stands, in whatever order with `const`, `unsafe`, `extern` and the like; only
# `pub(crate)`, `pub(super)` and `pub(self)` are not; and so is one of a trait. It is exported if an attribute keeps its name.
# A word of an `ensures` is a definition if the file has a `ghost use` of it (or of its module, as in `paper.sad`), unless it is a parameter or bound there
# (`λ k.`, `(k : ℕ)`), a field (`.qp`), or the name of the clause.
function scope_name(  k, path) {
    path = ""
    for (k = 1; k <= depth; k++) {
        if (named[k] != "") { path = path (path == "" ? "" : ".") named[k] }
    }
    return path
}

function no_path(a) { return a == "" ? "-" : a }

function emit(  path, public, word) {
    path = inside
    if (scope_name() != "") { path = path (path == "" ? "" : ".") scope_name() }
    gsub(/ , \)/, " )", signature)
    public = (seen_pub && !limited) || of_trait[depth] ? "public" : "private"
    print "function", crate, no_path(path), name, public, (kept ? "exported" : "-"), (requires ? "requires" : "-"), no_path(result), \
        no_path(outputs), FILENAME, signature
    print "word", name
    contracts++
    contract_of[contracts] = crate OFS no_path(path) OFS name
    for (word in bound) { delete cited[word] }
    cites[contracts] = ""
    for (word in cited) { cites[contracts] = cites[contracts] " " word cited[word] }
    stage = ""
    fresh()
}

# a word of an `ensures`
function ensured(t) {
    if (t ~ /^[A-Za-z_]/) {
        if (latest == "." && !spaced) { if (!dot_spaced) { qualifier = qualifier "." t; cited[qualifier] = cited[qualifier] "" } }
        else if (binding) { bound[t] = 1 }
        else { cited[t] = cited[t] ""; qualifier = t }
    } else if (t ~ /^[0-9]/) { if (latest ~ /^[A-Za-z_]/ && qualifier in cited && index(cited[qualifier] ",", "," t ",") == 0) { cited[qualifier] = cited[qualifier] "," t } }
    else if (t == ".") { dot_spaced = spaced; binding = 0 }
    else if (t == ":") { bound[latest] = 1 }
    else if (t == "\273" && latest == "\316") { binding = 1 }
    latest = t
}

# `ghost use Rattle.CRATE.specs.FILE.{NAME, NAME};` and `.. as NAME;`, over lines
function ghost(text,  of, file, n, k, item) {
    if (text !~ /Rattle\.[a-z0-9_]+\.specs\.[A-Za-z0-9]+(\.\{| as )/) { return }
    of = text; sub(/^.*Rattle\./, "", of); sub(/\.specs\..*/, "", of)
    file = text; sub(/^.*\.specs\./, "", file); sub(/[. ].*/, "", file)
    if (text ~ / as [^ ]+ *;/) { sub(/^.* as /, "", text); sub(/ *;.*/, "", text); module_of[text] = of OFS "specs/" file; return }
    sub(/^[^{]*\{/, "", text); sub(/\}.*/, "", text)
    n = split(text, item, ",")
    for (k = 1; k <= n; k++) { gsub(/[ \t]/, "", item[k]); if (item[k] != "") { definition_of[item[k]] = of OFS "specs/" file } }
}

# what the contracts of a file cite, where it ends
function end_file(  k, n, i, word, part, numbers) {
    for (k = 1; k <= contracts; k++) {
        n = split(cites[k], word, " ")
        for (i = 1; i <= n; i++) {
            numbers = word[i]; sub(/,.*/, "", word[i]); numbers = substr(numbers, length(word[i]) + 1)
            if (word[i] in definition_of) { print "cites", contract_of[k], definition_of[word[i]], word[i], no_path(numbers) }
            else if (split(word[i], part, ".") == 2 && part[1] in module_of) { print "cites", contract_of[k], module_of[part[1]], part[2], no_path(numbers) }
        }
    }
    contracts = 0; split("", definition_of); split("", module_of)
}

# forgets what stood before an item
function fresh() { seen_pub = 0; limited = 0; kept = 0; item = ""; bracket = 0; last = "" }

function head(t) {
    signature = signature " " t
    if (stage == "name") {
        name = t; stage = "generics"; angle = 0; signature = ""
    } else if (stage == "generics") {
        if (t == "<") { angle++ } else if (t == ">") { angle-- }
        if (t == "(" && angle == 0) { split("", bound); split("", cited); bound["self"] = 1; stage = "parameters"; round = 1; place = 0; some = 0; output = 0; outputs = ""; angle = 0; before = "" }
    } else if (stage == "parameters") {
        parameter(t)
    } else {
        behind_parameters(t)
    }
}

function parameter(t) {
    if (t == "(" || t == "[") { round++ } else if (t == ")" || t == "]") { round-- }
    if (t == "<") { angle++ } else if (t == ">") { angle-- }
    if (round == 0 || (round == 1 && angle == 0 && t == ",")) {
        if (some && output) { outputs = outputs (outputs == "" ? "" : ",") place }
        place++; some = 0; output = 0
        if (round == 0) { stage = "arrow"; result = ""; requires = 0; clause = 0; square = 0 }
    } else {
        some = 1
        if (t == ":" && round == 1) { bound[before] = 1 }
        if (t == "mut" && (before == "&" || before == "*" || before ~ /^'/)) { output = 1 }
    }
    before = t
}

# the result's type, then clauses, each a word and a part in braces, then the body
function behind_parameters(t) {
    if (clause > 0) {
        if (ensuring && clause > 1) { ensured(t) }
        if (t == "{") { clause++ } else if (t == "}") { clause--; if (clause == 1) { clause = 0 } }
        return
    }
    if (t == "[" || t == "(") { square++ } else if (t == "]" || t == ")") { square-- }
    if (t ~ /^(requires|ensures|decreases|where)$/) {
        if (t == "requires") { requires = 1 }
        ensuring = t == "ensures"; latest = ""; binding = 0
        clause = (t == "where" ? 0 : 1)
    } else if (t == "{") {
        emit()
        depth++; named[depth] = ""; of_trait[depth] = 0; body[depth] = ""
    } else if (t == ";" && square == 0) {
        emit()
    } else if (t ~ /^[A-Za-z_]/) {
        result = result (result == "" ? "" : ",") t
    }
}

function token(t) {
    if (stage != "") { head(t); return }
    if (using) {
        if (t == ";") { using = 0; fresh() } else if (t ~ /^[A-Za-z_]/) { print "word", t }
        return
    }
    if (t == "{") {
        depth++
        named[depth] = (item == "mod" || item == "impl" || item == "trait") ? subject : ""
        of_trait[depth] = item == "trait" || (item == "impl" && for_type)
        body[depth] = (item == "struct" || item == "enum") ? subject : ""
        fresh()
    } else if (t == "}") {
        if (depth > 0) { depth-- }
        fresh()
    } else if (t == ";" && bracket == 0) {
        fresh()
    } else {
        inside_item(t)
    }
    before_last = last; last = t
}

function inside_item(t) {
    if (t == "[" || t == "(") { bracket++ } else if (t == "]" || t == ")") { bracket-- }
    if (body[depth] != "" && t ~ /^[A-Za-z_]/) {
        print "word", t
        if (t == "Refusal" || t == "Refused") { print "refusing", body[depth] }
    }
    if (t == "mut" && (last == "&" || last ~ /^'/) && (body[depth] != "" || item == "struct" || item == "type")) {
        print "lending", crate, no_path(body[depth] != "" ? body[depth] : subject)
    }
    if (t == "pub") { seen_pub = 1; limited = 0 }
    else if (last == "(" && before_last == "pub" && (t == "crate" || t == "super" || t == "self")) { limited = 1 }
    else if (t == "no_mangle" || t == "export_name") { kept = 1 }
    else if (t == "fn") { stage = "name" }
    else if (t == "use") { using = 1 }
    else if (t ~ /^(mod|impl|trait|struct|enum|type)$/) { item = t; subject = ""; for_type = 0; nested = 0 }
    else if (item != "") {
        if (t == "<") { nested++ } else if (t == ">") { nested-- }
        else if (t == "for") { subject = ""; for_type = 1 }
        else if (t ~ /^[A-Za-z_]/ && nested == 0 && subject == "") { subject = t; print "word", t }
    }
}

BEGIN { OFS = "\t" }
FNR == 1 {
    end_file()
    split(FILENAME, part, "/")
    crate = part[2]
    inside = FILENAME
    sub(/^crates\/[^\/]*\/src\//, "", inside); sub(/\.rt$/, "", inside); gsub(/\//, ".", inside)
    sub(/(^|\.)mod$/, "", inside)
    if (inside == "lib" || inside == "main") { inside = "" }
    depth = 0; stage = ""; using = 0; in_comment = 0; body[0] = ""; of_trait[0] = 0
    ghostly = ""
    fresh()
}
/^[ \t]*ghost use / { ghostly = " " }
ghostly != "" { ghostly = ghostly $0; if ($0 ~ /;/) { ghost(ghostly); ghostly = "" } }
{
    rest = $0
    spaced = 1
    while (rest != "") {
        if (in_comment) {
            at = index(rest, "*/")
            if (at == 0) { break }
            in_comment = 0; rest = substr(rest, at + 2)
        } else if (match(rest, /^[ \t\r]+/)) { rest = substr(rest, RLENGTH + 1); spaced = 1 }
        else if (rest ~ /^\/\//) { break }
        else if (rest ~ /^\/\*/) { in_comment = 1; rest = substr(rest, 3) }
        else if (match(rest, /^b?"([^"\\]|\\.)*"/)) { rest = substr(rest, RLENGTH + 1) }
        else if (match(rest, /^b?'(\\[^']*|[^'\\])'/)) { rest = substr(rest, RLENGTH + 1) }
        else if (match(rest, /^(->|=>|[0-9]+|'?[A-Za-z_][A-Za-z0-9_]*)/)) { token(substr(rest, 1, RLENGTH)); rest = substr(rest, RLENGTH + 1); spaced = 0 }
        else { token(substr(rest, 1, 1)); rest = substr(rest, 2); spaced = 0 }
    }
}
END { end_file() }
