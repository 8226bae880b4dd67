# Holds the numbers of include/fleecebutton.h and docs/FORMAT.md to the definitions in crates/*/specs. Every table of the page is made again from the
# definitions and stands, row for row, under its own heading, in this file's order: sizes; places, marks and lengths of the heads and of each kind of
# record; numbers of refusals; the tests in the order of the definitions, each with its number and place; the order of blocks and what is present to them; the
# modes with what they need; V by its remainder. The words of a row stand here, its numbers do not. So do sentences with numbers (`sentence`).
# A kind of record or a refusal that is added to the definitions is asked for; one whose words are not known here is held by what any has:
# a record begins with its mark and its number and ends with its sum, its rows follow each other without gaps up to its length, and where a row says
# "at P + .. b + .. i" with what b and i go over, this begins and ends as the row does.
# With antt.awk; reads the files of specs, then include/fleecebutton.h and docs/FORMAT.md.
function complain(text) {
    print "stamp: " text
    wrong = 1
}

function trimmed(text) { sub(/^ +/, "", text); sub(/ +$/, "", text); return text }

# ---- the definitions: rhs["crate name", k] is what row k of a definition says, lhs what it says it of

FNR == 1 { in_comment = 0; now_key = "" }
FILENAME ~ /\/specs\/[A-Za-z0-9]+\.antt$/ {
    if (FNR == 1) {
        split(FILENAME, part, "/")
        crate = part[2]; name = part[4]; sub(/\.antt$/, "", name)
        specs[crate "/specs/" name] = 1
    }
    line = bare($0)
    if (line == "") { next }
    if (line ~ /^[^ ]/) {
        now_key = ""
        if (line ~ /^[a-z][A-Za-z0-9_]*( .*)? =( |$)/) {
            name = line; sub(/ .*/, "", name)
            now_key = crate " " name; now_row = ++rows_of[now_key]
            match(line, / =( |$)/)
            lhs[now_key, now_row] = substr(line, 1, RSTART - 1); rhs[now_key, now_row] = trimmed(substr(line, RSTART + 2))
            home[name] = now_key
        }
    } else if (now_key != "") { rhs[now_key, now_row] = trimmed(rhs[now_key, now_row] " " trimmed(line)) }
    next
}

# what the only row of a definition says
function says(key) {
    if (!((key, 1) in rhs)) { complain("format.awk: there is no definition " key); return "" }
    return rhs[key, 1]
}

# what the row of a definition that begins so says
function row(key, begins,  k) {
    for (k = 1; k <= rows_of[key]; k++) { if (index(lhs[key, k] " ", begins " ") == 1) { return rhs[key, k] } }
    return ""
}

# a definition has a part that the words of the page go by
function has(key, part,  k) {
    for (k = 1; k <= rows_of[key]; k++) { if (index(rhs[key, k], part)) { return } }
    complain("format.awk: " key " does not have " part ", which docs/FORMAT.md speaks of")
}

# the number behind a part of a definition, as "leb n " before 128
function behind(key, part,  text, at) {
    text = says(key); at = index(text, part)
    if (at == 0) { complain("format.awk: " key " does not have " part ", which docs/FORMAT.md speaks of"); return 0 }
    text = substr(text, at + length(part))
    return text + 0
}

# a sum of products, as 77 * 256 + 66 and 5 + 8
function value(text,  part, factor, n, m, i, k, one, all) {
    n = split(text, part, "+"); all = 0
    for (i = 1; i <= n; i++) {
        m = split(part[i], factor, "*"); one = 1
        for (k = 1; k <= m; k++) { one *= factor[k] }
        all += one
    }
    return all
}

# the numbers of a list, as "a, b, c"
function listed(text) {
    gsub(/[^0-9]+/, " ", text); sub(/^ /, "", text); sub(/ $/, "", text); gsub(/ /, ", ", text)
    return text
}

function mark(number) { return sprintf("%02X %02X", int(number / 256), number % 256) }

function thousands(number,  text, out) {
    text = sprintf("%d", number); out = ""
    while (length(text) > 3) { out = "," substr(text, length(text) - 2) out; text = substr(text, 1, length(text) - 3) }
    return text out
}

# a, b or c
function joined(one, n, last,  k, text) {
    text = one[1]
    for (k = 2; k <= n; k++) { text = text (k == n ? " " last " " : ", ") one[k] }
    return text
}

function field(key, name,  text) {
    text = says(key)
    if (!match(text, "[{;] *" name " = [^;}]*")) { complain("format.awk: " key " has no " name); return 0 }
    text = substr(text, RSTART, RLENGTH); sub(/^.* = /, "", text)
    return value(text)
}

# bytes from a place on, as a row names them
function bytes(place, long) { return long == 1 ? place : long == 2 ? place ", " (place + 1) : place " to " (place + long - 1) }

# ---- the header

FILENAME ~ /\.h$/ && FNR == 1 { read_numbers() }
FILENAME ~ /\.h$/ && match($0, /^ *FB_[A-Z]+ = [0-9]+/) {
    name = $1; sub(/^FB_/, "", name); at = $3; sub(/,.*/, "", at)
    in_header[name] = at
}

# ---- the page: its sections, their text and their tables

FILENAME ~ /FORMAT\.md$/ {
    sub(/[ \r]+$/, "")
    # what would be read otherwise than it is shown, or shown and not read
    if ($0 ~ /<!--|^ *(```|~~~)|^ *:?--+:? *\|/) { complain("docs/FORMAT.md:" FNR " has a comment, a fence or a table without its bars: " $0) }
    if ($0 ~ /^#+ /) {
        section = $0; sub(/^#+ /, "", section); tables = 0; in_table = 0
        if (section in headed) { complain("docs/FORMAT.md has the heading \"" section "\" twice") }
        headed[section] = 1
        next
    }
    if ($0 ~ /^ *\|/) {
        if (!in_table) { in_table = 1; tables++; order[section, tables] = ++all_tables; at_line[section, tables] = FNR; count[section, tables] = 0 }
        if ($0 !~ /^\|---/) { shown[section, tables, ++count[section, tables]] = $0 }
    } else { in_table = 0; if ($0 != "") { text_of[section] = text_of[section] " " $0 } }
    line = $0
    while (match(line, /`[a-z0-9_]+\/specs\/[A-Za-z]+`/)) {
        name = substr(line, RSTART + 1, RLENGTH - 2)
        if (!(name in specs)) { complain("docs/FORMAT.md names " name ", which crates/ has not") }
        line = substr(line, RSTART + RLENGTH)
    }
    line = $0
    while (match(line, /[0-9A-Z]+ [A-Z][A-Z]+[ ,]/)) {
        split(substr(line, RSTART, RLENGTH - 1), part, " ")
        if (part[2] in number && part[1] ~ /^[0-9]+$/) {
            if (number[part[2]] != part[1]) { complain("docs/FORMAT.md has " part[1] " for " part[2] ", refusal/specs/Number " number[part[2]]) }
            in_page[part[2]] = 1
        }
        line = substr(line, RSTART + RLENGTH - 1)
    }
}

# the next table of the page is this one; its rows follow by `want`
function table(name, index_in_section, words) {
    now_section = name; now_table = index_in_section; now_count = 0; now_words = words
    held[name, index_in_section] = 1
    if (!((name, index_in_section) in order)) { complain("docs/FORMAT.md has no table of " words " under \"" name "\""); return }
    if (order[name, index_in_section] < last_order) { complain("docs/FORMAT.md has the table of " words " before one that stands before it in the definitions") }
    last_order = order[name, index_in_section]
}

function want(text) {
    now_count++
    if (!((now_section, now_table) in order)) { return }
    if (!((now_section, now_table, now_count) in shown)) { complain("docs/FORMAT.md, " now_words ": there is no row " text) }
    else if (shown[now_section, now_table, now_count] != text) {
        complain("docs/FORMAT.md:" at_line[now_section, now_table] ", " now_words ": " shown[now_section, now_table, now_count] " stands where the definitions give " text)
    }
}

function end_table(  k) {
    for (k = now_count + 1; k <= count[now_section, now_table]; k++) { complain("docs/FORMAT.md, " now_words ": " shown[now_section, now_table, k] " is a row too many") }
}

function sentence(name, text) {
    if (index(text_of[name] " ", text) == 0) { complain("docs/FORMAT.md does not say under \"" name "\": " text) }
}

# ---- refusals: numbers by name, and of a refusal in a definition its number and its place as the page writes it

function read_numbers(  k, name, key) {
    key = "refusal number_of"
    for (k = 1; k <= rows_of[key]; k++) {
        name = lhs[key, k]; sub(/^number_of \(?/, "", name); sub(/[ )].*/, "", name)
        number[toupper(name)] = rhs[key, k] + 0; refusals++
        if (rhs[key, k] + 0 > highest_number) { highest_number = rhs[key, k] + 0 }
        if (row("refusal place_of", "place_of " name) == "0") { no_place[name] = 1 }
    }
    if (refusals == 0) { complain("refusal/specs/Number has no numbers") }
}

# the sides of the page: where a record or a head begins (`place`), how long it is, how long the file
function refusal_cells(text, place, long,  name, at, kind, key) {
    gsub(/[()]/, "", text)
    if (text ~ /^refusal_of /) {
        split(text, kind, " ")
        text = row("refusal refusal_of", "refusal_of " kind[2]); gsub(/[()]/, "", text)
    }
    sub(/^refusal\./, "", text)
    name = text; sub(/ .*/, "", name); at = name in no_place ? "0" : trimmed(substr(text, length(name) + 1))
    gsub(/ \* /, " ", at)
    at = " " at " "; sub(/ place /, " " place " ", at); sub(/ long /, " " long " ", at); sub(/ total /, " the file's length ", at); at = trimmed(at)
    sub(/^0 \+ /, "", at)
    if (!(toupper(name) in number)) { complain("format.awk: a test refuses with " name ", which has no number") }
    return number[toupper(name)] " | " at
}

# the cells of a chain of tests, in their order, in `cell`; those of a test by name, as quantizer_test, are that definition's, with its place
function cells_of(text, place, long, cell,  n, one, at, inner, key, rest, steps) {
    n = 0
    while (steps++ < 100 && match(text, /(refusal\.[A-Z][a-z]+( \([^()]*\)| [a-z0-9]+)?|refusal_of [A-Z][A-Za-z]*|[a-z][a-z0-9_]*_(test|ranges) (\([^()]*\)|[a-z0-9]+))/)) {
        one = substr(text, RSTART, RLENGTH); rest = substr(text, RSTART + RLENGTH)
        if (one ~ /^refusal/) { cell[++n] = refusal_cells(one, place, long); text = rest; continue }
        key = one; sub(/ .*/, "", key); at = substr(one, length(key) + 2)
        inner = key in home ? says(home[key]) : ""
        if (inner !~ /refusal\./) { text = at rest; continue }
        gsub(/ place/, " " at, inner)
        text = inner " " rest
    }
    return n
}

# a table of tests: the words in `word` beside the cells; equal cells that follow each other may share a row, if there are fewer words than tests
function tests(name, index_in_section, words, title, first, text, place, long, word, n,  cell, m, k, i) {
    m = cells_of(text, place, long, cell)
    table(name, index_in_section, words)
    want("| | " title " | number | place |")
    i = 1
    for (k = 1; k <= n; k++) {
        want("| " (first + k - 1) " | " word[k] " | " cell[i] " |")
        if (cell[i] ~ ("^" number["RANGE"] " ")) { range_test[first + k - 1] = 1 }
        i++
        while (m - i > n - k - 1 && i <= m && cell[i] == cell[i - 1]) { i++ }
    }
    if (i != m + 1) { complain("docs/FORMAT.md, " words ": " m " tests in the definitions, and words for another number") }
    end_table()
}

# ---- the sections

function hold_sizes(  n, one, k, most, luma, chroma, longest, count_max) {
    most = behind("head dimension", "leb n ")
    luma = behind("frame planes_tests", "plane_length "); chroma = behind("frame planes_tests", "luma ∷ length_test (plane_length ")
    count_max = most * most; longest = 0; n = 0
    for (k = kinds; k >= 1; k--) { if (kind[k] != "in_chroma") { if (long_of[kind[k]] > longest) { longest = long_of[kind[k]] } } }
    table("Sizes", 1, "the sizes")
    want("| of a picture of w by h macroblocks | bytes | at most, " luma * most " by " luma * most " |")
    want("| the luma plane | " luma * luma " w h | " thousands(luma * luma * count_max) " |")
    want("| each chroma plane | " chroma * chroma " w h | " thousands(chroma * chroma * count_max) " |")
    want("| the file, mono | at most " new_long " + " longest " w h | " thousands(old_long + longest * count_max) " in one slice |")
    want("| the file, colour | at most " new_long " + " longest + long_of["in_chroma"] " w h | " thousands(old_long + (longest + long_of["in_chroma"]) * count_max) " in one slice |")
    end_table()
    for (k = 1; k <= kinds; k++) { if (kind[k] != "in_chroma") { one[++n] = long_of[kind[k]] } }
    sort_numbers(one, n)
    sentence("Sizes", luma * luma " luma samples take " joined(one, n, "or") " bytes, and their " 2 * chroma * chroma " chroma samples " long_of["in_chroma"] ".")
    sentence("Sizes", luma " by " luma " luma samples, 1 to " most " each: so " luma " to " luma * most " samples a side, in steps of " luma ".")
    sentence("Bytes", "behind its first record are " mark(field("record in_chroma", "mark")) ".")
    sentence("Rebuilding", "Macroblock m begins in luma at column " luma " (m mod w) and row " luma " (m / w), in chroma at " chroma " (m mod w) and " chroma " (m / w).")
}

function sort_numbers(one, n,  i, k, x) {
    for (i = 2; i <= n; i++) { x = one[i] + 0; for (k = i - 1; k >= 1 && one[k] + 0 > x; k--) { one[k + 1] = one[k] } one[k + 1] = x }
}

# the fields of a head, two bytes each, from its definition, the sum behind them
function head_fields(key, one,  text, n, k) {
    text = says(key); sub(/^summed \(/, "", text); sub(/\)$/, "", text)
    n = split(text, one, " \\+\\+ ")
    for (k = 1; k <= n; k++) { if (!sub(/^bytes_of /, "", one[k])) { complain("format.awk: " key " has a field of another kind: " one[k]) } }
    one[n + 1] = "sum"
    return n + 1
}

function head_word(name, first) {
    if (name ~ /_mark$/) { return "mark " mark(value(says("head " name))) }
    if (name == "width") { return first ? "width w, in macroblocks" : "width w" }
    return name == "height" ? "height h" : name == "rows" ? "rows n of a slice" : name
}

function hold_head(  old, new, n, m, k, sum, text) {
    n = head_fields("head old_head", old); m = head_fields("head new_head", new)
    if (2 * n != old_long || 2 * m != new_long) { complain("format.awk: a head is not as long as its fields") }
    table("The head", 1, "the head")
    want("| bytes | one slice, " old_long " bytes | slices, " new_long " bytes |")
    for (k = 1; k <= m; k++) { want("| " bytes(2 * k - 2, 2) " |" (k <= n ? " " head_word(old[k], 1) " " : " ") "| " head_word(new[k], 0) " |") }
    end_table()
    sum = int(old_mark / 256) + old_mark % 256 + 2
    text = mark(old_mark) " 00 01 00 01 " mark(sum)
    sentence("The head", "The head of a picture of one macroblock is " text ".")
    sentence("The head", "The head of " old_long " bytes is one slice, n = h.")
    sentence("The head", "in a head of " new_long " bytes too.")
}

# the kinds in their order, how long each is, and the definition that writes one
function read_kinds(  k, text, name, at) {
    kinds = split(says("record kinds"), kind, " ∷ ")
    if (kind[kinds] == "[]") { kinds-- }
    for (k = 1; k <= kinds; k++) { long_of[kind[k]] = field("record " kind[k], "front") + 2 * field("record " kind[k], "levels") + 2 }
    has("record length_of", "kind.front + 2 * kind.levels + 2"); has("record front_with", "bytes_of kind.mark ++ bytes_of number ++ more")
    has("record record_with", "summed (front_with kind number more ++ level_bytes levels)")
    for (at in rhs) {
        split(at, text, SUBSEP)
        if (text[1] ~ /^record / && rhs[at] ~ /^record_with [a-z][a-z_]* number /) { name = rhs[at]; sub(/^record_with /, "", name); sub(/ .*/, "", name); writes[name] = rhs[at] }
    }
    title["in_fours"] = "The luma record of sixteen blocks"
    title["in_whole"] = "The luma record of a macroblock predicted as a whole"
    title["in_chroma"] = "The chroma record"
}

# the words of what stands behind the number
function front_word(item, place, chroma) {
    if (item == "qp") { return "QP" }
    if (item == "mode") { return chroma ? "mode, one for both planes" : "mode" }
    if (item ~ /^packed /) { return "modes: byte " place " + k has the mode of block 2k in its low four bits, that of block 2k + 1 in its high four" }
    if (item == "signed_byte cb") { return "offset of Cb" }
    if (item == "signed_byte cr") { return "offset of Cr" }
    return item
}

function hold_record(name,  text, item, n, k, place, long, front, levels) {
    if (!(name in title)) { hold_any_record(name); return }
    front = field("record " name, "front"); levels = field("record " name, "levels")
    table(title[name] ", " long_of[name] " bytes", 1, "the record " name)
    want("| bytes | |")
    want("| 0, 1 | mark " mark(field("record " name, "mark")) " |")
    want("| 2, 3 | number of the macroblock |")
    text = writes[name]; sub(/^[^(]*\(/, "", text); sub(/\)[^)]*$/, "", text); gsub(/\(|\)/, "", text)
    n = split(text, item, " ∷ "); place = 4
    for (k = 1; k <= n; k++) {
        if (item[k] == "[]") { continue }
        long = item[k] ~ /^packed / ? substr(item[k], 8) + 0 : 1 # `packed 8 modes` takes 8 bytes
        want("| " bytes(place, long) " | " front_word(item[k], place, text ~ /signed_byte/) " |")
        place += long
    }
    if (place != front) { complain("format.awk: the record " name " has " place " bytes before its levels, and its kind says " front) }
    hold_levels(name, front, levels)
    want("| " bytes(long_of[name] - 2, 2) " | sum |")
    end_table()
}

# level i of block b: in fours by `level_in`; else DC levels, one for each block, and 15 AC levels of each (`ac_in`), of one plane or of two
function hold_levels(name, front, levels,  per, blocks, planes, ac, from) {
    if (name == "in_fours") {
        per = behind("record level_in", "level_with in_fours ("); has("record level_in", "(" per " * block + k)"); blocks = levels / per
        want("| " bytes(front, 2 * levels) " | levels: level i of block b, in zigzag order, at " front " + " 2 * per " b + 2 i, for " \
            (blocks == per ? "b and i from 0 to " per - 1 : "b from 0 to " blocks - 1 " and i from 0 to " per - 1) " |")
        return
    }
    ac = behind("residual_whole ac_in", "take "); has("residual_whole ac_in", "drop (blocks_of s + " ac " * b) levels"); has("residual_whole blocks_of", "s * s / 16")
    planes = name == "in_chroma" ? 2 : 1
    blocks = levels / planes / (ac + 1)
    if (planes == 2) { has("macroblock_chroma cb_levels_in", "take " levels / 2 " (all_levels_in in_chroma part)"); has("macroblock_chroma cr_levels_in", "drop " levels / 2 " (all_levels_in in_chroma part)") }
    want("| " bytes(front, 2 * blocks) " | " blocks " DC levels" (planes == 2 ? " of Cb, by rows" : ", in zigzag order") ": level i at " front " + 2 i |")
    from = front + 2 * blocks
    want("| " bytes(from, 2 * ac * blocks) " | AC levels" (planes == 2 ? " of Cb" : "") ": level i of block b, in zigzag order, at " from " + " 2 * ac " b + 2 (i - 1), for b from 0 to " blocks - 1 " and i from 1 to " ac " |")
    from += 2 * ac * blocks
    if (planes == 2) { want("| " bytes(from, levels) " | the same of Cr, " levels " bytes further on |") }
}

# a kind that has no words here: its section is found by its length and its mark
function hold_any_record(name,  at, part, section, k, place, cell, first, last, n) {
    section = ""
    for (at in order) {
        split(at, part, SUBSEP)
        if (part[2] == 1 && part[1] ~ (", " long_of[name] " bytes$") && shown[part[1], 1, 2] == "| 0, 1 | mark " mark(field("record " name, "mark")) " |") { section = part[1] }
    }
    if (section == "") { complain("docs/FORMAT.md has no section of the record " name ", of " long_of[name] " bytes with the mark " mark(field("record " name, "mark"))); return }
    held[section, 1] = 1; place = 0
    if (order[section, 1] < last_order) { complain("docs/FORMAT.md has the record " name " before one that stands before it in the definitions") }
    last_order = order[section, 1]
    for (k = 2; k <= count[section, 1]; k++) {
        split(shown[section, 1, k], cell, "|")
        n = split(trimmed(cell[2]), part, /, | to /); first = part[1]; last = part[n]
        if (first != place || cell[2] !~ /^ [0-9]+(, [0-9]+| to [0-9]+)? $/ || last < first || (cell[2] ~ /,/ && last != first + 1)) { complain("docs/FORMAT.md, the record " name ": the row" cell[2] "does not begin at " place) }
        if (k == 3 && (last != 3 || cell[3] !~ /^ number of the macroblock/)) { complain("docs/FORMAT.md, the record " name ": its number does not stand at 2, 3") }
        hold_formula(name, cell[3], first, last)
        place = last + 1
    }
    if (place != long_of[name] || trimmed(cell[3]) != "sum" || last != first + 1) { complain("docs/FORMAT.md, the record " name ": its rows do not end with a sum at its end, " long_of[name]) }
}

# "at 38 + 30 b + 2 (i - 1), for b from 0 to 15 and i from 1 to 15" lies from 38 to 517
function hold_formula(name, text, first, last,  from, step, blocks, low, high, less) {
    if (!match(text, /at [0-9]+ \+ /)) { return }
    text = substr(text, RSTART + 3); from = text + 0; step = 0; blocks = 0; low = 0; less = 0
    if (match(text, /[0-9]+ b/)) { step = substr(text, RSTART) + 0 }
    if (match(text, /b from 0 to [0-9]+/)) { blocks = substr(text, RSTART + 12) + 0 }
    if (match(text, /b and i from 0 to [0-9]+/)) { blocks = high = substr(text, RSTART + 18) + 0 }
    if (match(text, /\(i - [0-9]+\)/)) { less = substr(text, RSTART + 5) + 0 }
    if (match(text, /i from [0-9]+ to [0-9]+/)) { low = substr(text, RSTART + 7) + 0; high = substr(text, RSTART, RLENGTH); sub(/.* to /, "", high) }
    if (high == "") { high = (last - first - 1) / 2 }
    if (from != first || low != less || (step != 0 && step != 2 * (high - less + 1)) || from + step * blocks + 2 * (high - less) + 1 != last) {
        complain("docs/FORMAT.md, the record " name ": level i does not go from " first " to " last ":" text)
    }
}

# the numbers that are between 1 and the highest and no refusal's, and those that the page says are not in use
function hold_unused(  used, k, text, n, part, range, name, said) {
    for (name in number) { used[number[name]] = 1 }
    text = text_of["Tests and refusals"]
    if (!match(text, /[0-9][^.]* not in use\./)) { complain("docs/FORMAT.md does not say which numbers are not in use"); return }
    text = substr(text, RSTART, RLENGTH); sub(/,? (is|are) not in use\./, "", text); gsub(/,? and /, ", ", text)
    n = split(text, part, ", ")
    for (k = 1; k <= n; k++) {
        if (part[k] !~ /^[0-9]+( to [0-9]+)?$/) { complain("docs/FORMAT.md says " part[k] " of the numbers that are not in use"); continue }
        split(part[k], range, " to "); if (range[2] == "") { range[2] = range[1] }
        for (name = range[1] + 0; name <= range[2]; name++) { said[name] = 1 }
        range[2] = ""
    }
    for (k = 1; k <= highest_number; k++) {
        if (k in used && k in said) { complain("docs/FORMAT.md says that " k " is not in use, and it is a refusal's number") }
        if (!(k in used) && !(k in said)) { complain("docs/FORMAT.md does not say that " k " is not in use") }
    }
    for (k in said) { if (k + 0 > highest_number) { complain("docs/FORMAT.md says that " k " is not in use, above the highest number") } }
}

# the table of numbers: by their order, each with its name, and the words where they have numbers
function hold_numbers(  k, cell, last, name, words, id) {
    words["QUANTIZER"] = "a QP above " highest "; an offset outside -" offset ".." offset
    words["RANGE"] = "a rescaled number outside -" wide_low ".." wide_high
    words["LENGTH"] = "a plane that is lent has another length than the head asks for"
    words["MODE"] = "a mode that there is none of, or that needs samples that are missing"
    words["SIZE"] = "a width, a height or the rows of a slice out of range"
    words["FORM"] = "too short or too long"
    words["MARK"] = "a mark that does not belong there"
    words["NUMBER"] = "a record with another number than its macroblock's"
    words["SUM"] = "a wrong sum"
    words["DIFFERS"] = "inspection alone: a delivered plane is not the decoded one"
    id = "Tests and refusals"
    table(id, 1, "the numbers of refusals")
    if (shown[id, 1, 1] != "| no. | name | of a file |") { complain("docs/FORMAT.md, the numbers of refusals: other titles than no., name, of a file") }
    last = 0
    for (k = 2; k <= count[id, 1]; k++) {
        split(shown[id, 1, k], cell, "|"); name = trimmed(cell[3])
        if (!(name in number)) { complain("docs/FORMAT.md has a refusal " name ", which refusal/specs/Number has not"); continue }
        if (trimmed(cell[2]) != number[name]) { complain("docs/FORMAT.md has " trimmed(cell[2]) " for " name ", refusal/specs/Number " number[name]) }
        if (number[name] <= last) { complain("docs/FORMAT.md, the numbers of refusals: " name " does not stand in the order of the numbers") }
        if (name in words && trimmed(cell[4]) != words[name]) { complain("docs/FORMAT.md, the numbers of refusals: " name " is \"" trimmed(cell[4]) "\" where the definitions give \"" words[name] "\"") }
        if (name in in_table_of) { complain("docs/FORMAT.md, the numbers of refusals: two rows of " name) }
        last = number[name]; in_page[name] = 1; in_table_of[name] = 1
    }
    for (name in words) { if (!(name in in_table_of)) { complain("docs/FORMAT.md, the numbers of refusals: there is no row of " name) } }
    for (name in number) {
        if (!(name in in_header)) { complain("include/fleecebutton.h has no " name) }
        else if (in_header[name] != number[name]) { complain("include/fleecebutton.h has " in_header[name] " for " name ", refusal/specs/Number " number[name]) }
        if (!(name in in_page)) { complain("docs/FORMAT.md has no " name) }
    }
    for (name in in_header) { if (!(name in number)) { complain("include/fleecebutton.h has a refusal " name ", which refusal/specs/Number has not") } }
    hold_unused()
}

# the marks of the kinds of luma, as they are told
function luma_marks(  k, n, one) {
    for (k = 1; k <= kinds; k++) { if (kind[k] != "in_chroma") { one[++n] = mark(field("record " kind[k], "mark")) } }
    return joined(one, n, "or")
}

function hold_tests(  w, id, wide, row_at, k, n, one, name) {
    id = "Tests and refusals"; wide = "outside -" wide_low ".." wide_high
    sentence(id, "**The head.** L is " old_long " or " new_long ", by the mark.")
    w[1] = "the file has fewer than " behind("head head_tests", "test (leb ") " bytes"
    w[2] = "its mark is neither " mark(old_mark) " nor " mark(new_mark)
    w[3] = "the file has fewer than L bytes"
    w[4] = "the sum of the head is wrong"
    w[5] = "width or height is " behind("head dimension", "leb ") - 1 " or above " behind("head dimension", "leb n ")
    w[6] = "the rows n are " behind("head rows_hold", "leb ") - 1 " or above the height"
    has("head rows_hold", "leb rows height"); has("head is_head", "eqb mark old_mark || eqb mark new_mark")
    tests(id, 2, "the tests of the head", "refused if", 1, says("head head_tests"), "0", "L", w, 6); row_at = 7
    w[1] = "a plane has another length than above; where three are lent, this is asked of the chroma planes of a mono file too"
    tests(id, 3, "the test of the planes", "refused if", row_at, "refusal." says_refusal("refusal length_test"), "0", "", w, 1); row_at += 1
    w[1] = "fewer than " behind("record form_tests", "test (leb ") " bytes are left"
    w[2] = "the mark is not " luma_marks() " where a luma record, not " mark(field("record in_chroma", "mark")) " where a chroma record is to stand"
    w[3] = "fewer than R bytes are left"
    w[4] = "the number is not the macroblock's"
    w[5] = "the sum of the record is wrong"
    tests(id, 4, "the tests of a record's form", "refused if", row_at, faults(says("record form_tests")), "P", "R", w, 5); row_at += 5
    w[1] = "bytes are left"
    tests(id, 5, "the test behind the last record", "refused if, behind the last record", row_at, says("record surplus"), "P", "R", w, 1); row_at += 1
    # a luma record has the tests of its kind, and they begin with the same number
    w[1] = "the QP is above " highest
    w[2] = "the mode of block b, the first of 0 to " behind("macroblock4 content_tests4", "scan_test ") - 1 ", is above " modes_of("intra4") - 1 " or needs what is missing"
    w[3] = "a rescaled number of block b, the first of 0 to " behind("macroblock4 content_tests4", "scan_test ") - 1 ", is " wide
    tests(id, 6, "the tests of sixteen blocks", "of sixteen blocks, refused if", row_at, says("macroblock4 content_tests4"), "P", "R", w, 3)
    w[2] = "the mode is above " modes_of("sides") - 1 " or needs what is missing"
    w[3] = "a DC value is " wide
    w[4] = "a rescaled AC level of block b, the first of 0 to " behind("macroblock16 content_tests16", "scan_test ") - 1 ", is " wide
    tests(id, 7, "the tests of a macroblock predicted as a whole", "predicted as a whole, refused if", row_at, says("macroblock16 content_tests16"), "P", "R", w, 4); row_at += 4
    w[1] = "Cb's offset, or else Cr's, is outside -" offset ".." offset
    w[2] = "the mode is above " modes_of("chroma") - 1 " or needs what is missing"
    w[3] = "a DC value or a rescaled AC level of Cb, or else of Cr, is " wide
    tests(id, 8, "the tests of chroma", "of chroma, P being the record's first byte; refused if", row_at, says("macroblock_chroma content_tests_chroma"), "P", "R", w, 3)
    n = 0
    for (k = 1; k <= rows_of["refusal is_content"]; k++) {
        if (rhs["refusal is_content", k] != "true") { continue }
        name = lhs["refusal is_content", k]; sub(/^is_content \(?refusal\./, "", name); sub(/[ )].*/, "", name)
        one[++n] = number[toupper(name)]
    }
    sort_numbers(one, n)
    sentence(id, "So the place of " joined(one, n, "and") " is a block of the picture")
    has("inspection differ_at", "place / 256"); has("inspection differs_test", "Differs")
    sentence(id, "it refuses with " number["DIFFERS"] ", place 256 m + s")
    n = 0; split("", one)
    for (k = 1; k < 100; k++) { if (k in range_test) { one[++n] = k } }
    sentence("From levels to samples", "Tests " joined(one, n, "and") " ask of these numbers, d and the DC values, that they lie within -" wide_low ".." wide_high ".")
}

# the variant that a test by itself refuses with
function says_refusal(key,  text) {
    text = says(key); sub(/.* /, "", text); gsub(/[()]/, "", text); sub(/^refusal\./, "", text)
    return text
}

# a chain of tests with faults, as one of refusals
function faults(text,  out) {
    out = ""
    while (match(text, /\) (CutMark|Mark|CutRest|Number|Sum) ∷/)) {
        out = out " refusal_of " substr(text, RSTART + 2, RLENGTH - 6)
        text = substr(text, RSTART + RLENGTH)
    }
    return out
}

function modes_of(crate,  one, n) { n = split(says(crate " modes"), one, " ∷ "); return n - 1 }

# blocks in their order, and of which the samples at the upper right are present
function hold_blocks(  b, v, u, n, line, place, group, other, one) {
    split(listed(says("picture block_table")), b, ", ")
    table("Rebuilding", 1, "the order of blocks")
    want("| | | | | | | |")
    for (v = 0; v < 4; v++) {
        line = "|"
        for (u = 0; u < 4; u++) { line = line " " b[4 * v + u + 1] " |" }
        line = line " |"
        for (u = 0; u < 2; u++) { line = line (v < 2 ? " " b[4 * v + u + 1] : "") " |" }
        want(line)
    }
    end_table()
    for (n = 0; n < 16; n++) {
        for (place = 0; place < 15 && b[place + 1] != n; place++) { }
        v = int(place / 4); u = place % 4
        if (v == 0) { other = u == 3 ? "right" : "above" }
        else { other = u < 3 && b[4 * (v - 1) + u + 2] < n ? "always" : "never" }
        group[other] = group[other] (group[other] == "" ? "" : ", ") n
    }
    table("Which samples are present", 1, "the macroblocks that are present")
    want("| macroblock | present exactly if |")
    want("| left | m mod w is not 0 |")
    want("| above | (m / w) mod n is not 0 |")
    want("| above left | both |")
    want("| above right | above is present and m mod w is not w - 1 |")
    end_table()
    table("Which samples are present", 2, "the samples at the upper right")
    want("| to the blocks | exactly if |")
    want("| " group["always"] " | always |")
    want("| " group["above"] " | the macroblock above is present |")
    want("| " group["right"] " | the macroblock above right is present |")
    want("| " group["never"] " | never |")
    end_table()
}

# the means and single samples of a rule, in its definition's order, as the page writes them
function terms(key, term,  text, n, one) {
    text = says(key); n = 0
    gsub(/ -ℤ /, "-", text); gsub(/pos /, "", text); gsub(/ \+ /, "+", text); gsub(/minus /, "-", text)
    while (match(text, /[TS] \(\([^()]*\)\)/)) { text = substr(text, 1, RSTART + 1) substr(text, RSTART + 3, RLENGTH - 4) substr(text, RSTART + RLENGTH) }
    while (match(text, /\(?[TS] \([^()]*\)\)?/)) {
        one = substr(text, RSTART, RLENGTH); gsub(/[() ]/, "", one)
        text = substr(text, 1, RSTART - 1) substr(one, 1, 1) "[" sample(one) "]" substr(text, RSTART + RLENGTH)
    }
    while (match(text, /(avg[23]( [TS]\[[^]]*\])+|[TS]\[[^]]*\])/)) {
        one = substr(text, RSTART, RLENGTH); text = substr(text, RSTART + RLENGTH)
        gsub(/[TS]\[/, "", one)
        if (one ~ /^avg/) { gsub(/\]/, ",", one); sub(/,$/, ")", one); sub(/ /, "(", one) } else { sub(/\]/, "", one) }
        term[++n] = one
    }
    return n
}

# T0 is A, S0 is I, at -1 both are M; h of the definitions is g of the page, which has an H
function sample(one,  side, at) {
    side = substr(one, 1, 1); at = substr(one, 2); gsub(/h/, "g", at)
    if (at == "-1") { return "M" }
    if (at ~ /^[0-9]+$/) { return substr(side == "T" ? "ABCDEFGH" : "IJKL", at + 1, 1) }
    return side "(" at ")"
}

function rule_cell(name,  t, n, key) {
    key = "intra4 " name; n = terms(key, t)
    if (name == "vertical" || name == "horizontal") { return t[1] }
    if (name == "down_left") { has(key, "cond (eqb x 3 && eqb y 3)"); return t[2] "; at 3, 3: " t[1] }
    if (name == "down_right") { has(key, "cond (ltb y x)"); has(key, "(cond (ltb x y)"); return "x > y: " t[1] "; x < y: " t[2] "; x = y: " t[3] }
    if (name == "vertical_right") {
        has(key, "let z = pos (2 * x) -ℤ pos y in let h = y / 2 in by_z z"); has("intra4 by_z", "cond (eqb (z % 2) 0) even odd")
        return "z = 2x - y, g = y / 2. z even and not negative: " t[1] "; z odd and positive: " t[2] "; z = -1: " t[3] "; z = -2 or -3: " t[4]
    }
    if (name == "horizontal_down") { has(key, "vertical_right S T y x"); return "mode 5 with x and y exchanged, and T and S" }
    if (name == "vertical_left") { has(key, "let h = y / 2 in cond (eqb (y % 2) 0)"); return "g = y / 2. y even: " t[1] "; y odd: " t[2] }
    if (name == "horizontal_up") {
        has(key, "let z = x + 2 * y in let h = x / 2 in cond (ltb 5 z)"); has(key, "(cond (eqb z 5)"); has(key, "(cond (eqb (z % 2) 0)")
        return "z = x + 2y, g = x / 2. z = 0, 2, 4: " t[3] "; z = 1, 3: " t[4] "; z = 5: " t[2] "; z above 5: " t[1]
    }
    complain("format.awk: no words for the rule " name)
    return ""
}

function mean_cell(side) {
    has("intra4 mean", "+ n) / (2 * n)"); has("intra4 mean", "+ n / 2) / n")
    return "with A-D and I-L: (their sum + " side ") / " 2 * side "; with one of them: (its sum + " side / 2 ") / " side "; with neither: " row("intra4 mean", "mean n missing missing")
}

# a mode by its number: the rule that stands there in the list of modes
function rules_of(crate, rule,  one, n, k) {
    n = split(says(crate " modes"), one, " ∷ ")
    for (k = 1; k < n; k++) {
        if (one[k] ~ /^samples /) { rule[k - 1] = "DC" }
        else if (one[k] ~ /plane [0-9]+\)$/) { rule[k - 1] = "plane" }
        else { rule[k - 1] = one[k]; sub(/.* /, "", rule[k - 1]) }
    }
    return n - 1
}

function hold_modes(  rule, n, k, need, one, i, luma, chroma, m, words, cells) {
    n = rules_of("intra4", rule)
    one = says("intra4 permitted"); sub(/.*get_or \(/, "", one); sub(/ ∷ \[\]\).*/, "", one); split(one, need, " ∷ ")
    has("intra4 permitted", "let A_D = bit_of f 0 in let I_L = bit_of f 1 in let all = all_present f in")
    table("Prediction of a 4x4 block", 1, "the modes of a 4x4 block")
    want("| mode | needs | sample at x, y |")
    for (k = 0; k < n; k++) {
        words = need[k + 1] == "true" ? "nothing" : need[k + 1] == "all" ? "A-D, I-L, M" : need[k + 1]; sub(/_/, "-", words)
        want("| " k " | " words " | " (rule[k] == "DC" ? mean_cell(4) : rule_cell(rule[k])) " |")
    }
    end_table()
    has("intra4 avg2", "(a + b + 1) / 2"); has("intra4 avg3", "(a + 2 * b + c + 2) / 4")
    sentence("Prediction of a 4x4 block", "avg2(a, b) = (a + b + 1) / 2 and avg3(a, b, c) = (a + 2 b + c + 2) / 4.")
    n = rules_of("sides", luma); m = rules_of("chroma", chroma)
    cells["vertical"] = "what is above | T(x)"; cells["horizontal"] = "what is at the left | S(y)"
    cells["DC"] = "nothing | DC, see below"; cells["plane"] = "above, left and the corner | plane, see below"
    table("Prediction of a macroblock as a whole, and of chroma", 1, "the modes of a macroblock")
    want("| luma's mode | chroma's mode | needs | sample at x, y |")
    for (k = 0; k < n; k++) {
        for (i = 0; i < m && chroma[i] != luma[k]; i++) { }
        want("| " k " | " i " | " cells[luma[k]] " |")
    }
    end_table()
}

function hold_levels_to_samples(  v, r, n, name, from) {
    name = "From levels to samples"
    n = split(listed(says("quantizer v_table")), v, ", ")
    table(name, 1, "V")
    want("| r | V a | V b | V c |")
    for (r = 0; r < n / 3; r++) { want("| " r " | " v[3 * r + 1] " | " v[3 * r + 2] " | " v[3 * r + 3] " |") }
    end_table()
    if (listed(says("quantizer column_of")) != "0, 1, 2") { complain("format.awk: quantizer column_of is not 0, 1, 2 for a, b, c") }
    from = behind("quantizer folded_of", "cond (ltb q "); has("quantizer folded_of", "get_or chroma_table (q - " from ") 0")
    sentence(name, "clipped to 0.." highest ", stands where it is below " from "; from " from " to " highest " it becomes " listed(says("quantizer chroma_table")) ".")
    if (split(listed(says("quantizer chroma_table")), v, ", ") != highest - from + 1) { complain("format.awk: chroma_table does not go from " from " to " highest) }
    sentence(name, "p = Q / " behind("quantizer period_of", "qp / ") " and r = Q mod " behind("quantizer remainder_of", "qp % ") ".")
    has("quantizer class_at", "cond (even row && even column) A (cond (odd row && odd column) B C)")
    sentence(name, "a where row and column are both even, b where both are odd, c elsewhere.")
    sentence(name, "Zigzag: level i of a block belongs to place " listed(says("quantizer zigzag_table")) " of its 4x4, counted by rows.")
}

# the others: of what stands where only the files are held
function hold_all(  at, part) {
    held["Where it stands in the definitions", 1] = 1
    for (at in order) {
        split(at, part, SUBSEP)
        if (!(at in held)) { complain("docs/FORMAT.md:" at_line[at] " has a table under \"" part[1] "\" that no definition gives") }
    }
}

END {
    if (!("record kinds" in rows_of) || !("picture block_table" in rows_of)) { complain("crates/ has no definitions of the format"); exit 1 }
    old_mark = value(says("head old_mark")); new_mark = value(says("head new_mark")); old_long = says("head old_length"); new_long = says("head new_length")
    highest = says("quantizer highest"); offset = behind("quantizer chroma_tests", "(pos "); has("quantizer chroma_tests", "(inside (minus " offset ") (pos " offset ") offset)")
    wide_low = behind("residual first_wide", "minus "); wide_high = behind("residual first_wide", "pos ")
    read_kinds()
    hold_sizes()
    hold_head()
    for (k = 1; k <= kinds; k++) { hold_record(kind[k]) }
    hold_numbers()
    hold_tests()
    hold_blocks()
    hold_modes()
    hold_levels_to_samples()
    hold_all()
    exit wrong
}
