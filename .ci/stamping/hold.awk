# Holds docs/STAMP.md (cited.awk), the uniqueness theorems and those of refusing to what was found in the crates and in the tests, the facts on standard
# input (source.awk, specs.awk, proofs.awk and exports.awk say what they are).
# The column "definition" of a function's line, by what stands in its `ensures` (all of them, whether as a predicate or in an equation):
#   - every definition of specs/ there is named, by its file, or without one if it stands in the function's own crate, in one file alone;
#   - where it is named with a number, as `mask 16`, it stands with that number there;
#   - the first that is named is one of these; a constructor of a `data` is no definition, and need not be named;
#   - whatever else is named, these come to, through types, rows and fields of definitions;
#   - where there is none, the column begins with "no definition: ", and only then.
function complain(what) { print "stamp: " what; complaints++ }

function shown(crate, path, name) {
    if (path != "-") { gsub(/\./, "::", path); name = path "::" name }
    return crate "::" name
}

BEGIN {
    FS = "\t"
    # what both kinds of theorems say
    forms["Unique"] = "abbrev pub Unique : (n : ℕ) (ps : List (ParamKind n)) (r : ResultKind n) → Out n ps r → (B : Type 0) → ((κs : Lfts n) → AtExit (ended_of n ps r) κs → B) → Type 0" \
        " Unique n ps r P B seen = (κs : Lfts n) (a : Dens κs ps) (x y : (res_t r κs).Denot) (e f : AtExit (ended_of n ps r) κs) → P κs a x e → P κs a y f" \
        " → (x ≡ y) × (seen κs e ≡ seen κs f)"
    forms["RefusesExactlyIf"] = "abbrev pub RefusesExactlyIf : (n : ℕ) (ps : List (ParamKind n)) (r : ResultKind n) → Out n ps r → ((κs : Lfts n) → Dens κs ps → List (Test Refusal))" \
        " → ((κs : Lfts n) → (res_t r κs).Denot → Verdict Refusal) → Type 0 RefusesExactlyIf n ps r P tests told = (κs : Lfts n) (a : Dens κs ps)" \
        " (x : (res_t r κs).Denot) (e : AtExit (ended_of n ps r) κs) → P κs a x e → ExactlyIf (tests κs a) (told κs x)"
}
reading_list { next }
$1 == "listed" { listed[$2] = 1; next }
$1 == "folder" { folder[$2] = 1; next }
$1 == "edit" { edit[$2, $3] = 1; edit_name[$3] = 1; edits++; known[$3] = 1; next }
$1 == "function" {
    any_function[$4] = 1
    name = shown($2, $3, $4)
    contract_of[name] = $11
    if ($6 == "exported") { exported[$4] = 1; exports++; export_of[++thin] = name; library_of[name] = $2; sub(/_c$/, "", library_of[name]); in_c[name] = $2; bare_of[name] = $4; at_root[name] = $3 == "-" }
    # the crate of C's exports repeats those of the library, and is held to them (hold_thin)
    if ($5 == "public" && $6 != "exported" || $6 == "exported" && ($2 !~ /_c$/ || $3 != "-")) {
        is_public[name] = 1
        public[++publics] = name; crate_of[name] = $2; path_of[name] = $3; name_of[name] = $4
        is_exported[name] = $6; has_requires[name] = $7; result_of[name] = $8; outputs_of[name] = $9
    }
    next
}
$1 == "cites" { name = shown($2, $3, $4); numbers_of[name, $7] = $8; cites_of[name] = cites_of[name] "\n" $5 SUBSEP $6 SUBSEP $7; next }
$1 == "comes_to" { comes_to[$2, $3, $4] = comes_to[$2, $3, $4] "\n" $5 SUBSEP $6 SUBSEP $7; next }
$1 == "refusing" { refusing[$2] = 1; next }
$1 == "lending" { complain("crates/" $2 ": the type " $3 " holds an output, which is not seen in a parameter"); next }
$1 == "word" { known[$2] = 1; next }
$1 == "declared" {
    folder_of = $3; sub(/\/.*/, "", folder_of)
    if ($5 == "name") {
        if (!(($2, $3, $4) in declared)) { files_with[$2, folder_of, $4]++ }
        declared[$2, $3, $4] = 1; declared[$2, folder_of, $4] = 1
    }
    known[$4] = 1
    if (folder_of == "proofs" && $5 == "name") { theorem[$4] = 1 }
    if (folder_of == "specs" && $5 == "name") { defined[$4] = 1 }
    next
}
$1 == "file" { file_of[$2, $3] = 1; next }
$1 == "tool" { tool[$2] = 1; next }
$1 == "reading" { reading[$2, $3, $5, $6] = $4; next }
$1 == "taken" { takes[$2, $3, $4] = $5; next }
$1 == "form" { said_form[$2] = $3; next }
$1 == "tells" { told_of[$2, $3, $4] = $5; told_badly[$2, $3, $4] = $6; next }
$1 == "refuses" {
    refuses[$2, $3] = 1; tests_named[$2, $3] = $7; told_by[$2, $3] = $8
    ps_refused[$2, $3] = $4; r_refused[$2, $3] = $5; learnt_refused[$2, $3] = $6
    next
}
$1 == "unique" {
    unique[$2, $3] = 1; sees[$2, $3] = $7; beside[$2, $3] = $8
    of_ps[$2, $3] = $4; of_r[$2, $3] = $5; of_learnt[$2, $3] = $6
    next
}
$1 == "knows" { knows[$2, $3] = 1; known_outside[$3] = 1; next }
$1 == "helper" { helper[$2] = 1; next }
$1 == "names" { mentioned[$3] = $2; next }

function hold_crates(  crate) {
    for (crate in listed) { if (!(crate in folder)) { complain("crates.txt lists " crate ", which has no folder in crates/") } }
    for (crate in folder) { if (!(crate in listed)) { complain("crates/" crate " is not listed in crates.txt") } }
    if (publics == 0) { complain("crates/ has no public function") }
}

function theorem_of(name,  stem, path, type) {
    stem = name_of[name]
    path = path_of[name]
    if (path ~ /[A-Z]/) { type = path; sub(/.*\./, "", type); type = tolower(type); stem = type "_" stem }
    return stem
}

function own_proofs(name) { return "Rattle." crate_of[name] ".proofs." (path_of[name] == "-" ? "" : path_of[name] ".") name_of[name] }

# what a file of theorems says it with: taken of the module that has it, and not declared there again
function hold_word(crate, file, word, module) {
    if (takes[crate, file, word] != module) { complain("crates/" crate "/proofs/" file ".antt does not take " word " of " module) }
    if (stands(crate, "proofs/" file, word)) { complain("crates/" crate "/proofs/" file ".antt has a " word " of its own") }
}

# both of a theorem's names for the kinds, and that for the reading, are the function's own
function hold_reading(about, name, file, ps, r, learnt,  crate, own) {
    crate = crate_of[name]; own = own_proofs(name)
    if (reading[crate, file, "Reads", learnt] != own) { complain(about " is not over its reading " own ".Reads") }
    if (reading[crate, file, "Kinds", ps] != own || reading[crate, file, "Kinds", r] != own) { complain(about " is not over its kinds " own ".Kinds") }
}

# the theorem is over the function's own kinds and reading, and sees each output at exit and nothing else
function hold_uniqueness(name,  crate, t, about) {
    crate = crate_of[name]; t = theorem_of(name) "_unique"; about = name ": " t
    if (!((crate, t) in unique)) { complain(name " has no " t " in crates/" crate "/proofs/Unique.antt"); return }
    if (beside[crate, t] == "?") { complain(about " is not written as a uniqueness theorem"); return }
    hold_reading(about, name, "Unique", of_ps[crate, t], of_r[crate, t], of_learnt[crate, t])
    if (sees[crate, t] != outputs_of[name]) {
        complain(about " sees the outputs at " sees[crate, t] ", and the function has them at " outputs_of[name])
    }
    if (beside[crate, t] != (outputs_of[name] == "-" ? "tt" : "-")) {
        complain(about " sees something else than its outputs at exit: " beside[crate, t])
    }
    with_unique[crate] = 1
}

# a file of `specs/` by its module, as "crate, folder/file"; nothing if the module is none
function specs_of(module,  crate, file) {
    if (module !~ /^Rattle\.[a-z0-9_]+\.specs\.[A-Za-z0-9]+$/) { return "" }
    crate = module; sub(/^Rattle\./, "", crate); sub(/\.specs\..*/, "", crate)
    file = module; sub(/.*\./, "", file)
    return crate SUBSEP "specs/" file
}

# the theorem is over the function's own kinds and reading; its tests are a definition's, of the call's arguments; and what it reads of the
# answer, a `Result` with a `Refusal`, is a definition that lets no refusal pass
function hold_refusing(name, t,  crate, about, tests, tells, at, word, n) {
    crate = crate_of[name]; about = name ": " t
    if (!((crate, t) in refuses)) { complain(name " has no " t " in crates/" crate "/proofs/Refuses.antt"); return }
    tests = tests_named[crate, t]; tells = told_by[crate, t]
    if (tests == "?") { complain(about " is not written as a theorem of refusing exactly if"); return }
    hold_reading(about, name, "Refuses", ps_refused[crate, t], r_refused[crate, t], learnt_refused[crate, t])
    at = specs_of(takes[crate, "Refuses", tests])
    if (tests !~ /_tests$/ || at == "" || !((at, tests) in declared) || stands(crate, "proofs/Refuses", tests)) {
        complain(about " names the tests " tests ", which it takes of no file of specs/")
    }
    at = specs_of(takes[crate, "Refuses", tells])
    if (at == "" || !((at, tells) in told_of) || stands(crate, "proofs/Refuses", tells)) { complain(about " reads the answer by " tells ", which no file of specs/ tells of an answer") }
    else if (!is_result_of_refusal(name)) { complain(about " reads the answer by " tells ", and the function answers " result_of[name] ", not a Result with a Refusal") }
    else if (told_badly[at, tells] != "-") { complain(about " reads the answer by " tells ", which is no reading of refusals: " told_badly[at, tells]) }
    with_refuses[crate] = 1
}

# the words that both kinds of theorems are written with, and what these say, word for word
function hold_words(  crate, name) {
    for (name in forms) { if (said_form[name] != forms[name]) { complain(name " is not what it was: " said_form[name]) } }
    for (crate in with_unique) { hold_word(crate, "Unique", "Unique", "Rattle.unique.specs.Unique") }
    for (crate in with_refuses) {
        hold_word(crate, "Refuses", "RefusesExactlyIf", "Rattle.refusal.specs.Refuses")
        if ((crate, "Refuses", "length") in takes) { hold_word(crate, "Refuses", "length", "lib.ListN") }
    }
}

# `Result<.., Refusal>`
function is_result_of_refusal(name) {
    return result_of[name] ~ /^Result,/ && result_of[name] ~ /,Refusal$/
}

# a Refusal comes back beside something else, in a Result or in a type of the house
function can_refuse(name,  word, n, k) {
    n = split(result_of[name], word, ",")
    if (n > 1 && word[n] == "Refusal") { return 1 }
    for (k = 1; k <= n; k++) { if (word[k] in refusing) { return 1 } }
    return 0
}

# A crate is a library or a static library, so the exports of NAME stand in NAME_c: each is there, at the root, and is the library's function of its name,
# with all that stands between the name and the body, word for word. So what is said of the library's holds of it, and that one counts as exported.
function hold_thin(  k, name, of) {
    for (k = 1; k <= thin; k++) {
        name = export_of[k]
        if (in_c[name] == library_of[name] || !at_root[name]) { continue }
        of = library_of[name] "::" bare_of[name]
        if (!(of in is_public)) { complain("the exported " name " has no " of " in its library") }
        else if (contract_of[of] != contract_of[name]) { complain("the exported " name " has other words than " of) }
        else { is_exported[of] = "exported" }
    }
}

# who calls an exported function is held to nothing, in whatever module it stands, and no exception lets it off
function hold_requires(name) {
    if (is_exported[name] != "-" && has_requires[name] != "-") { complain("the exported " name " has a requires") }
}

# an entry point stands at the root of its crate
function hold_entry(name,  t) {
    if (path_of[name] ~ /^[a-z]/) { return }
    if (is_exported[name] == "-" && has_requires[name] != "-") { complain("the entry point " name " has a requires") }
    if (can_refuse(name)) {
        t = theorem_of(name) "_refuses_exactly_if"
        hold_refusing(name, t)
        if (refuses_cell[name] != t) { complain(name " has no " t " in its line of docs/STAMP.md") }
    }
    if ((path_of[name] == "-" && is_exported[name] == "-") || can_refuse(name)) {
        if (ruled_out[name] < 2) { complain(name " has fewer than two must-fail edits in its line of docs/STAMP.md") }
    }
}

function hold_exports(  name) {
    if (exports == 0) { complain("crates/ exports no function") }
    hold_known("header", "include/fleecebutton.h")
    hold_known("peer", "tests/peer/peer.c")
    hold_known("differential", "tests/differential/src/functions.rs")
    for (name in mentioned) { if (!(name in exported)) { complain(mentioned[name] " names " name ", which crates/ does not export") } }
}

# who knows every exported function, and no other but those that the header defines itself
function hold_known(who, file,  name) {
    for (name in exported) { if (!((who, name) in knows)) { complain("the exported " name " is not known to " file) } }
    for (name in known_outside) {
        if ((who, name) in knows && !(name in exported) && !(name in helper)) { complain(file " knows " name ", which crates/ does not export") }
    }
}

function hold_edits(  at, part) {
    if (edits == 0) { complain("crates/ has no must-fail edit") }
    for (at in edit) {
        split(at, part, SUBSEP)
        if (!(at in cited)) { complain("docs/STAMP.md does not cite crates/" part[1] "/must-fail/" part[2] ".edit") }
    }
}

# the definitions that the function's `ensures` cite; a constructor is none
function definitions_of(name, one,  all, m, n, k) {
    n = 0; m = name in cites_of ? split(substr(cites_of[name], 2), all, "\n") : 0
    for (k = 1; k <= m; k++) { if (all[k] in declared) { one[++n] = all[k] } }
    return n
}

# what some definitions come to, step by step; by file, and by crate alone
function reach(from, n, reached,  k, i, m, next_ones, part) {
    for (k = 1; k <= n; k++) {
        split(from[k], part, SUBSEP); reached[from[k]] = 1; reached[part[1], "specs", part[3]] = 1
        m = split(substr(comes_to[from[k]], 2), next_ones, "\n")
        for (i = 1; i <= m; i++) { if (!(next_ones[i] in reached)) { reached[next_ones[i]] = 1; from[++n] = next_ones[i] } }
    }
}

# the column "definition" names, by their files, all definitions that the function's `ensures` cite, one of them first; where they cite none it says so;
# and whatever else it names, these come to
function hold_definition(name,  part, one, n, k, first, m, named, reached) {
    if (!(name in line_of)) { return }
    n = definitions_of(name, one)
    for (k = 1; k <= n; k++) {
        split(one[k], part, SUBSEP)
        if (!((name, part[1], part[2], part[3]) in row_names || (name, part[1], "specs", part[3]) in row_names)) {
            complain(name " has no " part[3] " of " part[1] "/" part[2] " in its column definition, which its ensures cites")
        }
    }
    for (k = 1; k <= n; k++) {
        split(one[k], part, SUBSEP)
        if ((name, part[3]) in row_numbers && row_numbers[name, part[3]] != numbers_of[name, part[3]]) {
            complain(name " has " part[3] " of " substr(row_numbers[name, part[3]], 2) " in its column definition, its ensures of " substr(numbers_of[name, part[3]], 2))
        }
    }
    if ((definition_cell[name] ~ /^no definition: /) != (n == 0)) {
        complain(name (n == 0 ? " has a contract that cites no definition, and its column does not say so" : " has a column that says there is no definition, and its ensures cites one"))
    }
    if (n > 0 && name in row_first) {
        split(row_first[name], part, SUBSEP); first = 0
        for (k = 1; k <= n; k++) { if (one[k] == row_first[name] || (part[2] == "specs" && one[k] ~ "^" part[1] SUBSEP "specs/[^/]*" SUBSEP part[3] "$")) { first = 1 } }
        if (!first) { complain(name " has " part[3] " of " part[1] "/" part[2] " first in its column definition, which its ensures does not cite") }
    }
    m = name in row_list ? split(substr(row_list[name], 2), named, "\n") : 0
    reach(one, n, reached)
    for (k = 1; k <= m; k++) {
        split(named[k], part, SUBSEP)
        if (part[2] == "specs" && files_with[named[k]] > 1) { complain(name " has " part[3] " without its file in its column definition, and several files of crates/" part[1] "/specs have one") }
        if (!(named[k] in reached)) { complain(name " has " part[3] " of " part[1] "/" part[2] " in its column definition, to which nothing comes that its ensures cites") }
    }
}

function hold_line(name,  t) {
    t = theorem_of(name) "_unique"
    if (!(name in line_of)) { complain(name " has no line in docs/STAMP.md") }
    else if (unique_cell[name] != t) { complain(name " has another theorem than " t " in its line of docs/STAMP.md") }
}

END {
    end_paragraph()
    hold_crates()
    hold_thin()
    for (k = 1; k <= publics; k++) {
        hold_requires(public[k])
        if (public[k] in exception) { continue }
        hold_line(public[k])
        hold_definition(public[k])
        hold_uniqueness(public[k])
        hold_entry(public[k])
    }
    hold_words()
    hold_exports()
    hold_edits()
    print "stamp: " publics + 0 " public functions, " exports + 0 " exported, " edits + 0 " must-fail edits, " names_cited + 0 " names cited, " \
        exceptions + 0 " exceptions, " complaints + 0 " complaints"
    exit complaints > 0
}
