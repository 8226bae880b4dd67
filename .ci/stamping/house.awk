# Holds the column "stands on" of docs/ARCHITECTURE.md to crates.txt: every crate has one line, which names the crates that it uses and no
# others. Words of that column that are no crate of this repository (the kit's, and what is said between) are passed over.
# Reads crates.txt, then docs/ARCHITECTURE.md.
function complain(text) {
    print "stamp: " text
    wrong = 1
}

FNR == NR {
    sub(/#.*/, "")
    if (NF) {
        name = $1
        sub(/:.*/, "", name)
        crates[name] = 1
        sub(/^[^:]*:/, "")
        for (i = 1; i <= NF; i++) uses[name, $i] = 1
    }
    next
}

/^\| `[a-z0-9_]+` \|/ {
    split($0, cell, "|")
    name = cell[2]
    gsub(/[ `]/, "", name)
    if (!(name in crates)) next
    if (name in seen) complain("docs/ARCHITECTURE.md has two lines for " name)
    seen[name] = 1
    gsub(/[^a-z0-9_]+/, " ", cell[4])
    n = split(cell[4], word, " ")
    for (i = 1; i <= n; i++) if (word[i] in crates) stands[name, word[i]] = 1
}

END {
    for (name in crates) {
        if (!(name in seen)) {
            complain("docs/ARCHITECTURE.md has no line for " name)
            continue
        }
        for (other in crates) {
            if ((name, other) in uses && !((name, other) in stands)) complain("docs/ARCHITECTURE.md does not say that " name " stands on " other)
            if (!((name, other) in uses) && (name, other) in stands) complain("docs/ARCHITECTURE.md says that " name " stands on " other ", which crates.txt does not")
        }
    }
    exit wrong
}
