#!/usr/bin/env python3
"""Brings this repository's own names to today's spelling: definitions, lemmas, fields, constructors and aliases in snake case.

usage: python3 tools/respell.py [--table]

It was run once, behind port.py, at the top; docs/PORT.md says at which commit. A name is the repository's own if a text of specs/ or a lemma file of proofs/
declares it, or brings it `as` a name. It goes by whole words. Functions of src/, exported names, strings, inputs and outputs keep their names, and labels that
the toolchain makes (behind a dot in the proof of a function) stay for the proofs to be brought over. Where a lemma would fall together with a definition, or
with another name of a file that uses it, its name ends in `_law`. --table only prints the old and new spellings.
"""
import collections
import glob
import re
import sys

WORD = re.compile(r"[^\s(){}.;,@\"«»]+")
HEAD = re.compile(r"^\s*(?:(?:pub|abbrev|unfoldable|opaque) +)*((?:[^\s(){}.;,@\"«»]+ +)*?[^\s(){}.;,@\"«»]+)(?: \{[^{}]*\})* :(?: |$)")
DATA = re.compile(r"^\s*(?:(?:pub|abbrev) +)*(?:data|record) +([^\s(){}.;,@\"«»]+)")
ALIAS = re.compile(r" as ([^\s(){}.;,@\"«»]+)")


def snake(name):
    if name[:1].isupper() and "-" not in name:
        return name
    words = re.sub(r"(?<=[a-z0-9])([A-Z])", lambda m: "_" + m[1].lower(), name)
    return words.replace("-", "_").replace("′", "'")


def lemma_files():
    return sorted(glob.glob("crates/*/specs/**/*.antt", recursive=True) + glob.glob("crates/*/proofs/*.antt"))


def function_files():
    known = set(lemma_files())
    return sorted(f for f in glob.glob("crates/*/proofs/**/*.antt", recursive=True) if f not in known)


def rust_files():
    return sorted(glob.glob("crates/*/src/**/*.rt", recursive=True))


def read(f):
    with open(f, encoding="utf-8") as h:
        return h.read()


def declared(text):
    names = set()
    for line in text.split("\n"):
        if line.lstrip().startswith("--"):
            continue
        m = HEAD.match(line)
        if m:
            names.update(m[1].split())
        m = DATA.match(line)
        if m:
            names.add(m[1])
        if line.lstrip().startswith(("use ", "pub use ", "unfoldable use ")):
            names.update(ALIAS.findall(line))
    return names


def spellings():
    own = set()
    for f in lemma_files():
        own |= declared(read(f))
    table = {n: snake(n) for n in own if snake(n) != n and re.search(r"[a-z]{2}|[A-Z]", n)}
    behind = collections.defaultdict(set)
    for o, n in table.items():
        behind[n].add(o)
    # the way to a module is no name that a file knows
    way = re.compile(r"(?m)^(\s*(?:(?:pub|unfoldable) +)?use )[^\s{;]+")
    words = {f: set(WORD.findall(way.sub(r"\1", read(f)))) for f in lemma_files()}
    for o in sorted(table):
        if "-" not in o:
            continue
        n = table[o]
        falls = len(behind[n]) > 1 or any(o in w and n in w for w in words.values()) and not n.startswith("fb_")
        if falls:
            table[o] = n + "_law"
    return table


def comment_of(text, table, here):
    """a comment: names in definition's old spelling, names in back quotes, and lemmas that its own file declares"""
    def word(m):
        w = m[0]
        tail = re.search(r"[:'’!?]*$", w)[0]
        bare = w[: len(w) - len(tail)] if tail else w
        quoted = bare.strip("`")
        if quoted in table and ("-" not in quoted or bare != quoted or quoted in here):
            return w.replace(quoted, table[quoted])
        return w
    return WORD.sub(word, text)


def code_of(text, table, by_hand):
    def word(m):
        w = m[0]
        if w not in table:
            return w
        if by_hand and "-" in w and m.start() and text[m.start() - 1] == "." and (m.start() < 2 or text[m.start() - 2] not in " ("):
            return w
        return table[w]
    return WORD.sub(word, text)


def antt(text, table, by_hand):
    here = declared(text)
    out = []
    for line in text.split("\n"):
        m = re.search(r"(?:^|(?<=\s))--(?=\s|$|-)", line)
        code, comment = (line[: m.start()], line[m.start():]) if m else (line, "")
        out.append(code_of(code, table, by_hand) + comment_of(comment, table, here))
    return "\n".join(out)


def rust(text, table):
    def ghost(m):
        return code_of(m[0], table, False)
    text = re.sub(r"(?m)^ *(?:pub )?ghost use [^;]*;", ghost, text)
    camel = {o: n for o, n in table.items() if "-" not in o}
    return re.sub(r"\b[A-Za-z_]\w*\b", lambda m: camel.get(m[0], m[0]), text)


def page(text, table):
    return re.sub(r"`[^`\n]+`", lambda m: WORD.sub(lambda w: re.sub(r"^(`?)(.*?)(`?)$", lambda p: p[1] + table.get(p[2], p[2]) + p[3], w[0]), m[0]), text)


def edit(text, table):
    lines = text.split("\n")
    proof = False
    for i, line in enumerate(lines):
        if line.startswith("file:"):
            proof = line.strip().endswith(".antt")
        elif line.startswith(("old:", "new:")):
            lines[i] = line[:4] + (code_of(line[4:], table, False) if proof else rust(line[4:], table))
        elif line.startswith("#"):
            lines[i] = page(line, table)
    return "\n".join(lines)


def main():
    table = spellings()
    if "--table" in sys.argv:
        for n in sorted(table):
            print(n, table[n], sep="\t")
        return
    work = [(f, lambda t: antt(t, table, False)) for f in lemma_files()]
    work += [(f, lambda t: antt(t, table, True)) for f in function_files()]
    work += [(f, lambda t: rust(t, table)) for f in rust_files()]
    work += [(f, lambda t: edit(t, table)) for f in sorted(glob.glob("crates/*/must-fail/*.edit"))]
    work += [(f, lambda t: page(t, table)) for f in sorted(["README.md", "CHANGELOG.md"] + glob.glob("docs/**/*.md", recursive=True))]
    texts = [(f, read(f), turn) for f, turn in work]
    for f, text, turn in texts:
        new = turn(text)
        if new != text:
            with open(f, "w", encoding="utf-8") as h:
                h.write(new)


if __name__ == "__main__":
    main()
