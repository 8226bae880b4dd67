# Holds crates/stamp to the exported functions, so that no claim there is hollow. With antt.awk; reads what source.awk tells, as `-`, then
# crates/turned/specs/Calls.antt, crates/stamp/specs/*.antt, then crates/stamp/proofs/*.antt.
#   A table of claims is an `abbrev pub T : D → Type 0` whose D is a `data` of stamp/specs; every `data` with Claim in its name has one. Behind it stands
#   in the file of the same name in stamp/proofs, under no assumption and word for word, `pub NAME : (k : D) → T k`, and D and T are there what they are
#   in stamp/specs. `sisters` has the names of those that docs/STAMP.md tells of; a table that is added must have one too, of any name.
#   A table of functions is one whose type begins with `Exported →` or `(f : Exported) →`.
#   stamp/specs has no module, which might have an assumption.
#   Every table has one row for each constructor, under its own name, and no other: no variable and no `_` that would stand for several.
#   A name of stamp/specs stands there once, and its other files take it of there.
#   `Exported` lists the exported functions. The row `function NAME` is the function's own kinds and reading, and a call (`Call`, `CallOf`) is one of
#   that reading, without a further field that no call might have.
function complain(text) {
    print "stamp: " text
    wrong = 1
}

BEGIN {
    FS = "\t"
    sisters["Demand1"] = "demand_1"; sisters["Demand2"] = "demand_2"; sisters["Demand3"] = "demand_3"
    sisters["Unseen"] = "unseen_has_no_value"; sisters["Useless"] = "useless_shut_out"; sisters["Request"] = "requests"
    split("function Contents contents_of tests_of made_of", of_functions, " ")
    fields["Call"] = "(n : ℕ) (ps : List (ParamKind n)) (r : ResultKind n) (P : Out n ps r) : Type 0 where; pub lifetimes : Lfts n; pub given : Dens lifetimes ps" \
        "; pub word : (res_t r lifetimes).Denot; pub exit : AtExit (ended_of n ps r) lifetimes; pub learnt : P lifetimes given word exit"
    fields["CallOf"] = "(f : Exported) : Type 0 where; pub call : Call (function f).0 (function f).1 (r_num w64) (function f).2"
}

FILENAME == "-" {
    if ($1 == "function" && $6 == "exported") {
        # the library's function of that name, which hold.awk holds the export to
        name = $4
        exported[name] = ($3 == "-" ? "" : $3 ".") $4; home[name] = $2; sub(/_c$/, "", home[name])
    }
    next
}

FNR == 1 {
    close_statement()
    in_comment = 0; open = ""; body = ""
    file = FILENAME; sub(/^.*\//, "", file); sub(/\.antt$/, "", file)
    of_specs = FILENAME ~ /\/specs\//; of_turned = FILENAME ~ /\/turned\//
}
{
    line = bare($0)
    if (line == "") { next }
    match(line, /^ */); indent = RLENGTH
    # of the file of `turned`, the record of a call alone
    if (of_turned) { if (indent == 0) { body = "" } if (line ~ /^pub record Call / || body != "") { if (indent == 0) { at_margin(line) } else { further(substr(line, indent + 1)) } } next }
    if (indent == 0) { at_margin(line) } else { further(substr(line, indent + 1)) }
}

function at_margin(line,  n, k, word, text, name) {
    close_statement()
    open = ""; body = ""
    if (line ~ /^use /) {
        n = taken(line)
        if (n == 0) { complain("stamp/" (of_specs ? "specs/" : "proofs/") file ": a use of another form: " line) }
        for (k = 1; k <= n; k++) { hold_taken(taken_as[k], taken_of[k], taken_what[k]) }
        return
    }
    text = unmarked(line)
    split(text, word, " ")
    if (of_specs) {
        if (word[1] == "module") { complain("stamp/specs/" file " has a module, and so claims under an assumption: " line) }
        if (word[1] == "data") { named(word[2]); datas[word[2]] = file; open = word[2]; return }
        if (word[1] == "record") { named(word[2]); body = word[2]; said[body] = text; sub(/^record [^ ]+ /, "", said[body]); return }
        if (word[2] == ":") {
            type = text; sub(/^[^ ]+ : /, "", type)
            named(word[1]); declared[word[1]] = file; type_of[word[1]] = type
            open = ":" word[1]
        } else { rows[word[1], word[2]]++; row_of[word[1]] = row_of[word[1]] "\t" word[2]; text_of[word[1], word[2]] = text; open = "=" word[1] SUBSEP word[2] }
    } else {
        name = word[1] ~ /^(data|record)$/ ? word[2] : word[1]
        if (name in datas || (name in declared && type_of[name] ~ /→ Type 0$/)) { complain("stamp/proofs/" file " has a " name " of its own") }
        if (line ~ /^pub [^ ]+ : /) { theorem = word[1]; statement = text; sub(/^[^ ]+ : /, "", statement) }
    }
}

# what goes on: constructors, fields, a type, a row, a statement
function further(text,  n, k, word) {
    if (statement != "") { statement = statement " " text; return }
    if (body != "") { said[body] = said[body] "; " text; return }
    if (open ~ /^:/) { type_of[substr(open, 2)] = type_of[substr(open, 2)] " " text; return }
    if (open ~ /^=/) { text_of[substr(open, 2)] = text_of[substr(open, 2)] " " text; return }
    if (open == "") { return }
    n = split(text, word, " ")
    for (k = 1; k <= n && word[k] != ":"; k++) { constructor[open, word[k]] = 1; constructors[open] = constructors[open] "\t" word[k] }
    if (k != n - 1 || word[n] != open) { plain_not[open] = 1 }
}

# a theorem ends where its own body begins, at the margin
function close_statement() {
    if (statement != "") { stated[file, statement] = theorem; states[file, theorem] = statement }
    statement = ""
}

# the words of the claims are those of stamp/specs
function hold_taken(name, of, what) {
    if (!of_specs) { taken_here[file, name] = of (what == name ? "" : "." what); return }
    if (what == "") { alias[file, name] = of } else { takes[file, name] = of (what == name ? "" : "." what) }
}

# a name of stamp/specs stands there once, and who takes it takes it of there
function hold_names(  at, part, own) {
    for (at in takes) {
        split(at, part, SUBSEP)
        if (!(part[2] in home_of)) { continue }
        own = (part[2] == "Call" ? "Rattle.turned.specs." : "Rattle.stamp.specs.") home_of[part[2]]
        if (takes[at] != own) {
            complain("stamp/specs/" part[1] " takes " part[2] " of " takes[at] ", not of " own)
        }
    }
}

function named(name) {
    if (name in home_of) { complain("stamp/specs/" file " has a " name ", and so has stamp/specs/" home_of[name]) }
    home_of[name] = file
}

function hold_rows(table, data,  k, n, name) {
    n = split(substr(constructors[data], 2), name, "\t")
    for (k = 1; k <= n; k++) {
        if (rows[table, name[k]] == 0) { complain("stamp/specs/" declared[table] ": " table " has no row for " name[k]) }
        else if (rows[table, name[k]] > 1) { complain("stamp/specs/" declared[table] ": " table " has two rows for " name[k]) }
    }
    n = split(substr(row_of[table], 2), name, "\t")
    for (k = 1; k <= n; k++) {
        if (!((data, name[k]) in constructor)) { complain("stamp/specs/" declared[table] ": " table " has a row for " name[k] ", which is none of " data) }
    }
}

# the theorem behind a table of claims
function hold_table(table, data,  file, own, name) {
    file = declared[table]
    hold_rows(table, data)
    own = "Rattle.stamp.specs."
    if (!((file, "(k : " data ") → " table " k") in stated)) {
        if (table in sisters && (file, sisters[table]) in states) {
            complain("stamp/proofs/" file ": " sisters[table] " is not word for word (k : " data ") → " table " k, but " states[file, sisters[table]])
        } else { complain("stamp/proofs/" file " has no theorem (k : " data ") → " table " k, which " table " of stamp/specs/" file " wants") }
        return
    }
    name = stated[file, "(k : " data ") → " table " k"]
    if (table in sisters && name != sisters[table]) { complain("stamp/proofs/" file " has " name " where " sisters[table] " should stand") }
    if (taken_here[file, table] != own file) { complain("stamp/proofs/" file " does not take " table " of " own file) }
    if (taken_here[file, data] != own datas[data]) { complain("stamp/proofs/" file " does not take " data " of " own datas[data]) }
}

function hold_claims(  name, data, seen) {
    for (name in type_of) {
        data = type_of[name]
        if (!sub(/ → Type 0$/, "", data) || !(data in datas) || data == "Exported") { continue }
        seen[data] = 1
        if (data ~ /Claim/ || name in sisters) { hold_table(name, data) }
        else { complain("stamp/specs/" declared[name] ": " name " is a table of claims, and " data " is not called one") }
    }
    for (data in datas) { if (data ~ /Claim/ && !(data in seen)) { complain("stamp/specs/" datas[data] ": the claims " data " have no table " data " → Type 0") } }
    for (name in sisters) { if (!(name in declared)) { complain("stamp/specs has no table " name ", of which " sisters[name] " is to speak") } }
}

function hold_functions(  name, k, text, own, first, list) {
    for (name in exported) { if (!(("Exported", name) in constructor)) { complain("stamp/specs/Calls: Exported has no " name) } }
    k = split(substr(constructors["Exported"], 2), list, "\t")
    for (; k > 0; k--) { if (!(list[k] in exported)) { complain("stamp/specs/Calls: Exported has " list[k] ", which crates/ does not export") } }
    if ("Exported" in plain_not) { complain("stamp/specs/Calls: Exported is not written as a list of functions") }
    for (k = 1; k in of_functions; k++) {
        if (type_of[of_functions[k]] !~ /^(Exported|\(f : Exported\)) /) { complain("stamp/specs has no table " of_functions[k] " of the exported functions") }
    }
    for (name in type_of) { if (type_of[name] ~ /^(Exported|\(f : Exported\)) /) { hold_rows(name, "Exported") } }
    for (name in exported) {
        text = text_of["function", name]; first = text
        sub(/^.*= \([0-9]+, /, "", first); sub(/\..*/, "", first)
        own = "." exported[name]
        if (text !~ /= \([0-9]+, [^ ]+, [^ ]+\)$/ || index(text, ", " first own ".Kinds.ps, " first own ".Reads.Learnt)") == 0) {
            complain("stamp/specs/Calls: function " name " is not its own reading, (n, library" own ".Kinds.ps, library" own ".Reads.Learnt)")
        } else if (alias["Calls", first] != "Rattle." home[name] ".proofs") { complain("stamp/specs/Calls: " first " is " alias["Calls", first] ", not Rattle." home[name] ".proofs") }
    }
    if (home_of["Exported"] != "Calls" || home_of["function"] != "Calls") { complain("stamp/specs/Calls has no Exported or no function") }
    for (name in fields) { if (said[name] != fields[name]) { complain("stamp/specs/Calls: the record " name " is not word for word " fields[name]) } }
}

END {
    close_statement()
    hold_names()
    hold_functions()
    hold_claims()
    exit wrong
}
