"""Counts of docs/DESIGN-PASS.md. Run at the top of a checkout: python3 tools/places.py WHAT.., where WHAT is one of the names at the end."""
import collections, difflib, itertools, re, subprocess, sys
FILES = subprocess.check_output(['git', 'ls-files', 'crates/*/src/*.rt'], text=True).split()
Fn = collections.namedtuple('Fn', 'crate file line name vis params ret clauses body doc')

def close(t, i):                                     # the place behind the bracket that opens at i
    pair, d = {'(': ')', '{': '}', '[': ']'}, 0
    o, c = t[i], pair[t[i]]
    while True:
        d += (t[i] == o) - (t[i] == c)
        i += 1
        if d == 0: return i

def angle(t, i):                                     # the place behind the `>` of the `<` at i
    d = 0
    while True:
        d += (t[i] == '<') - (t[i] == '>' and t[i - 1] not in '-=')
        i += 1
        if d == 0: return i

def split(t, sep):                                   # at the top level of brackets, and for parameters of `<>`
    out, d, k = [], 0, 0
    i = 0
    while i < len(t):
        d += (t[i] in '([{') - (t[i] in ')]}')
        if sep == ',': d += (t[i] == '<') - (t[i] == '>' and t[i - 1] not in '-=')
        if d == 0 and t.startswith(sep, i):
            out.append(t[k:i]); k = i + len(sep); i = k
        else: i += 1
    return [x.strip() for x in out + [t[k:]] if x.strip()]

def conj(t):                                         # a clause's conjuncts
    t = ' '.join(t.split())
    while t.startswith('(') and close(t, 0) == len(t): t = t[1:-1].strip()
    p = split(t, ' × ')
    return [t] if len(p) == 1 else [c for x in p for c in conj(x)]

def functions():
    for f in FILES:
        raw = open(f).read()
        t = re.sub(r'//[^\n]*', lambda m: ' ' * len(m.group()), raw)
        for m in re.finditer(r'(?m)^ *(pub(?:\(crate\))? )?(?:const )?(extern "C" )?fn (\w+)(?=[<(])', t):
            a = m.end()
            if t[a] == '<': a = angle(t, a)          # generic parameters, with `->` in their bounds
            i = close(t, a)
            params = [tuple(x.strip() for x in p.split(':', 1)) if ':' in p else (p, '') for p in split(t[a + 1:i - 1].replace('\n', ' '), ',')]
            ret, clauses = '', []
            r = re.compile(r'\s*->\s*((?:[^\n{]|\n(?!\s*(?:requires|ensures|\{)))*)').match(t, i)
            if r: ret, i = r.group(1).strip(), r.end()
            r = re.compile(r'\s*where\b(?:[^\n{]|\n(?!\s*(?:requires|ensures|\{)))*').match(t, i)
            if r: i = r.end()
            while True:
                r = re.compile(r'\s*(requires|ensures)( \w+)? (?=\{)').match(t, i)
                if not r: break
                e = close(t, r.end())
                clauses.append((r.group(1), conj(t[r.end() + 1:e - 1]))); i = e
            i = t.index('{', i)
            e = close(t, i)
            above = raw[:m.start()].rstrip('\n').split('\n')
            doc = []
            while above and re.match(r'\s*(//|#\[)', above[-1]): doc.insert(0, above.pop().strip())
            yield Fn(f.split('/')[1], f, t[:m.start(3)].count('\n') + 1, m.group(3), (m.group(1) or '').strip(), params, ret, clauses, t[i:e], ' '.join(doc))

FNS = list(functions())
def at(f): return f'{f.file}:{f.line} {f.name}'
def show(rows, by=None):
    for r in rows: print(r)
    c = collections.Counter(by or (r.split('/')[1] for r in rows))
    print('TOTAL', sum(c.values()), dict(sorted(c.items())))

OWN = r'\b(Answer|Built|Chosen|CodedPlane|Decoded|Form|Head|Promised|Quantizers|Sheeted|Walk)\b'
KEEP = set('let mut if else for in while match return break continue as fn true false self Self crate'.split())
def shape(f, numbers=True):
    toks = re.findall(r"'?\w+|\S", f.body)
    return tuple(x if x in KEEP or not re.match(r"'?\w", x) else ('0' if x[0].isdigit() else '_') for x in toks)

def enums():      # 1: own enums with a variant that refuses or is nothing
    rows = []
    for f in FILES:
        t = open(f).read()
        for m in re.finditer(r'enum (\w+)(?:<.*?>)? \{([^}]*)\}', t):
            if re.search(r'\b(Refused|Faulty|Broken|Nothing|Whole|None|Err)\b', m.group(2)):
                rows.append(f'{f}:{t[:m.start()].count(chr(10)) + 1} {m.group(1)} {{{" ".join(m.group(2).split())}}}')
    show(rows)
def answers():    # 1: functions that answer with an own enum of that shape (or take one)
    show([f'{at(f)} -> {f.ret}' for f in FNS if re.search(OWN, f.ret)])
    show([f'{at(f)} takes {p}: {t}' for f in FNS for p, t in f.params if re.search(OWN, t)])
def handed():     # 1: a refusal handed on by hand, where `?` would
    rows = []
    for f in FILES:
        t = open(f).read()
        for m in re.finditer(r'\w+::(?:Refused|Faulty)\((?:refusal|fault)\) =>\s*\{?\s*(?:return )?\w+::(?:Refused|Broken)\((?:refusal|fault)\b', t):
            rows.append(f'{f}:{t[:m.start()].count(chr(10)) + 1} {" ".join(m.group().split())}')
    show(rows)
def letelse():    # 1: an own answer taken apart by let-else
    show([f'{at(f)}: {m.group()}' for f in FNS for m in re.finditer(r'let \w+::\w+\([^)]*\) = [^;{]*else', f.body)])
def refused():    # 1: each `X::Refused(..)` that is made or matched
    show([f'{at(f)}: {m.group()}' for f in FNS for m in re.finditer(r'\b(?!Refusal)\w+::Refused\b', f.body)])
def sentinels():  # 1: a number that means none: the functions that answer it (by their names and what is said above them), each test of it, and constants
    show([f'{at(f)} -> {f.ret}: {f.doc[3:113]}' for f in FNS if f.ret in ('usize', 'Standing') and (re.match('first_(?!place)|unsettled', f.name) or re.search(r'where (there is no|there are no|none|no )', f.doc))])
    names = r'\b(first_(?!place)\w+|length_by|record_length|length_from)\('
    rows = []
    for f in FNS:
        for m in re.finditer(r'let (\w+) =\s*[\w:]*' + names, f.body):
            for q in re.finditer(r'if ' + m.group(1) + r' (<|!=|==) [\w.()]+', f.body): rows.append(f'{at(f)}: {q.group()}')
        for m in re.finditer(names + r'[^;{}]*?\) (==|!=|<) \w+', f.body): rows.append(f'{at(f)}: {" ".join(m.group().split())}')
    show(rows)
    show([f'{f}:{n} {l.strip()}' for f in FILES for n, l in enumerate(open(f), 1) if re.search('NEVER_SENT|4294967295,', l) and 'use ' not in l])
def bools():      # 1, 7: parameters that are flags
    show([f'{at(f)}({", ".join(p + ": " + t for p, t in f.params)})' for f in FNS if any(t == 'bool' for _, t in f.params)])
def kinds():      # 1: numbers for kinds
    show([f'{at(f)} {p}: {t}' for f in FNS for p, t in f.params if (p, t) in {('mode', 'u8'), ('function', 'u8'), ('slice', 'usize')}])
    show([f'{at(f)} flags: u8' for f in FNS if ('flags', 'u8') in f.params])
def shapes():     # 2: functions whose bodies are alike but for names and numbers (12 tokens and more)
    g = collections.defaultdict(list)
    for f in FNS:
        if f.crate != 'fleecebutton_c' and len(shape(f)) >= 12: g[shape(f)].append(f)
    n = 0
    for k, v in sorted(g.items(), key=lambda x: -len(x[0])):
        if len(v) > 1: n += len(v); print(len(k), ' | '.join(at(f) for f in v))
    print('GROUPS', sum(len(v) > 1 for v in g.values()), 'FUNCTIONS', n)
def near():       # 2: nearly alike (ratio .85 and more of 40 tokens and more)
    s = [(f, shape(f)) for f in FNS if f.crate not in ('fleecebutton_c', 'fleecebutton') and len(shape(f)) >= 40]
    n = 0
    for (f, a), (g, b) in itertools.combinations(s, 2):
        if a != b and min(len(a), len(b)) / max(len(a), len(b)) > .7:
            r = difflib.SequenceMatcher(None, a, b, False).ratio()
            if r >= .85: n += 1; print(f'{r:.2f} {at(f)} | {at(g)}')
    print('PAIRS', n)
def names():      # 2: names that differ in a size or a side only
    c = collections.defaultdict(set)
    for f in FNS:
        if f.crate == 'fleecebutton_c': continue
        k = re.sub(r'(?<=[a-z])\d+$|^(fb_)?(cb|cr|luma|chroma)_|_(old|new|size)$|^(vertical|horizontal|fours|whole|chroma)_', '*', f.name)
        if '*' in k: c[k].add(at(f).replace('crates/', ''))
    rows = [f'{k}: ' + ' | '.join(sorted(v)) for k, v in sorted(c.items()) if len(v) > 1]
    for r in rows: print(r)
    print('GROUPS', len(rows), 'FUNCTIONS', sum(len(v) for v in c.values() if len(v) > 1))
def loops():      # 3: each loop; "counts": while with a counter; "indexes": its variable stands in [..] only; "number": it is used as a number, too
    rows, kinds = [], collections.Counter()
    for f in FNS:
        for m in re.finditer(r"\b(while [^{]*|for ([^{\n]+?) in ([^{]*))\{", f.body):
            body = f.body[m.end() - 1:close(f.body, m.end() - 1)]
            over = m.group(3) or ''
            for _ in range(4): over = re.sub(r'\[[^\[\]]*\]|\([^()]*\)', '', over)
            if m.group(1).startswith('while'): k = 'iterator' if m.group(1).startswith('while let') else 'counts'
            elif '..' not in over and not re.match(r'\(\w+\.\.', m.group(3)): k = 'iterator'
            elif m.group(2) == '_': k = 'times'
            else:
                b, v = body, m.group(2)
                for _ in range(4): b = re.sub(r'\[[^\[\]]*\]', '', b)
                k = 'number' if re.search(r'\b' + v + r'\b', b) else 'indexes' if re.search(r'\b' + v + r'\b', body) else 'times'
            kinds[k] += 1
            rows.append(f'{at(f)} [{k}] {" ".join(m.group(1).split())}')
    show(rows); print(dict(kinds))
def hand():       # 4: equality, order, copying, conversion by hand
    pats = [('equality', r'\b(same_list|first_unlike|all_zero)\('), ('copying of numbers: whole::inner::copy', r'whole::inner::copy\('),
            ('filling: clear, put_mean, put_dc', r'\b(clear|put_mean|put_dc)\('), ('order: absolute, gap, clip, inside', r'\b(absolute|gap|clip|inside)\('),
            ('order: a - b or 0', r'\b(beyond|left)\([a-z0-9]+,'), ('bytes of a number', r'/ 256\) as u8|% 256\) as u8'),
            ('number of bytes', r'\]\) \* 256 \+|256 \* widened\(|\d+ \* (two|four)_bytes\('), ("two's complement", r'level \+ 65536|bits as i32 - 65536|\+ 65280|4294967295 - bits|\(bits_of\(number\) % 256'),
            ('a field from a variable of its name', r'\b(\w+): \1\b,?')]
    print('-- a function that only widens'); show([at(f) for f in FNS if re.fullmatch(r'\{\s*\w+ as \w+\s*\}', f.body)])
    for name, p in pats:
        print('--', name); show([f'{at(f)}: {m.group()}' for f in FNS for m in re.finditer(p, f.body)])
    print('-- as'); print(sum(len(re.findall(r'\bas [uif]\w+\b', f.body)) for f in FNS), dict(sorted((+collections.Counter({c: sum(len(re.findall(r'\bas [uif]\w+\b', f.body)) for f in FNS if f.crate == c) for c in {f.crate for f in FNS}})).items())))
    print('-- printing'); show([at(f) for f in FNS if f.ret == 'Text'])
def clauses():    # 5: what stands in the contracts of three or more functions: as written, and with the names of slices and quantizers left out
    for side, norm in (('requires', False), ('requires', True), ('ensures', False)):
        c = collections.defaultdict(dict)
        for f in FNS:
            for kind, cs in f.clauses:
                for x in cs if kind == side else []:
                    if norm: x = re.sub(r'\b\w+\.(now|old|new)\b', '_', re.sub(r'\b(first|second|cb|cr|quantizer|self)\.qp\b', '_.qp', x))
                    c[x][at(f)] = f.crate
        print('--', side, 'names left out' if norm else 'as written')
        for x, v in sorted(c.items(), key=lambda y: -len(y[1])):
            if len(v) > 2: print(f'{len(v)} | `{x}` | ' + ', '.join(f'{k} {n}' for k, n in sorted(collections.Counter(v.values()).items())))
def travel():     # 5: pairs of parameters (name and type) in three or more functions, of which one is hardly seen without the other
    one, two = collections.Counter(), collections.defaultdict(list)
    for f in FNS:
        if f.crate == 'fleecebutton_c': continue
        ps = sorted({f'{p}: {t}' for p, t in f.params if t})
        one.update(ps)
        for a, b in itertools.combinations(ps, 2): two[a, b].append(f)
    for (a, b), v in sorted(two.items(), key=lambda x: -len(x[1])):
        if len(v) > 2 and len(v) >= .6 * min(one[a], one[b]): print(f'{len(v)} | {a} ({one[a]}) + {b} ({one[b]}) | ' + ', '.join(f'{k} {n}' for k, n in sorted(collections.Counter(f.crate for f in v).items())))
    groups = ['layout m', 'layout m b', 'layout m quantizer', 'layout m quantizer plane rebuilt', 'layout start file', 'layout start file place m', 'file place', 'file start', 'start file colour', 'cb_offset cr_offset', 'luma cb cr',
              'cb cr', 'luma_out cb_out cr_out', 'cb_out cr_out', 'cb_neighbours cr_neighbours', 'cb_samples cr_samples', 'cb_prediction cr_prediction', 'neighbours flags', 'neighbours flags samples', 'width height', 'width height rows', 't s', 't s flags',
              'above left', 'above left first second', 'quantizer prediction levels', 's quantizer', 's quantizer levels b', 'plane layout', 'plane own layout m b', 'plane at back step present', 'original rebuilt', 'original rebuilt map', 'n corner side', 'kind number next more', 'function frame', 'frame slice', 'first second', 'part b', 'n qp', 'mf f q', 'rt name', 'flags mode', 'mode cost best', 't len']
    for g in groups:
        v = [f for f in FNS if f.crate != 'fleecebutton_c' and set(g.split()) <= {p for p, _ in f.params}]
        if v: print(f'GROUP {g} | {len(v)} | ' + ', '.join(f'{k} {n}' for k, n in sorted(collections.Counter(f.crate for f in v).items())))
def buffers():    # 6: a slice with a place or a length beside it; structs with a length; sides given beside the slices that have it
    show([f'{at(f)}({", ".join(p + ": " + t for p, t in f.params)})' for f in FNS if any('[' in t for _, t in f.params) and any(p in ('place', 'start', 'at', 'front', 'end', 'count', 'len', 'offset') and t == 'usize' for p, t in f.params)])
    print('-- lengths as parameters in place of the slices')
    show([f'{at(f)}({", ".join(p + ": " + t for p, t in f.params)})' for f in FNS if f.crate != 'fleecebutton_c' and any(t == 'usize' and p in ('luma', 'cb', 'cr', 'file', 'given', 'room', 'predicted', 'luma_out', 'cb_out', 'cr_out', 'total') for p, t in f.params)])
    print('-- a size beside slices of that size')
    show([f'{at(f)}({", ".join(p + ": " + t for p, t in f.params)})' for f in FNS if any(p in ('n', 's') and t in ('usize', 'u16') for p, t in f.params) and any('[u8]' in t or '[i32]' in t for _, t in f.params)])
    print('-- parts cut by numbers: x[a..b] with at, end or 16 *')
    show([f'{at(f)}: {m.group()}' for f in FNS for m in re.finditer(r'\w+\[(?:at|place|start|\d+|used|count|front)?\.\.(?:end|at|behind|long|count|\w+)?\]', f.body)])
def steps():      # 7: a match on a number (or a flag) each arm of which calls
    rows = []
    for f in FNS:
        for m in re.finditer(r'match (\w+) \{', f.body):
            b = f.body[m.end() - 1:close(f.body, m.end() - 1)]
            arms = re.findall(r'(?m)^\s*(?:\d[\d |.=]*|_) =>', b)
            if arms and len(re.findall(r'=>\s*[\w:]+\(', b)) >= 2: rows.append(f'{at(f)} match {m.group(1)}: {len(arms)} arms')
    show(rows)
if __name__ == '__main__':
    for w in sys.argv[1:]: print('==', w); globals()[w]()
