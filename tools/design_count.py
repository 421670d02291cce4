#!/usr/bin/env python3
"""Counts the places of the design pass (docs/DESIGN-PASS.md) in crates/*/src: tools/design_count.py [ROOT] [--list]. ROOT is a checkout; --list names each place."""
import collections, glob, re, sys

root = next((a for a in sys.argv[1:] if not a.startswith('--')), '.')
listing = '--list' in sys.argv
files = sorted(glob.glob(root + '/crates/*/src/**/*.rt', recursive=True))
text = {f[len(root) + 1:]: open(f).read() for f in files}

def lines(pattern):
    out = []
    for f, s in text.items():
        for k, line in enumerate(s.split('\n'), 1):
            if re.search(pattern, line) and not line.lstrip().startswith('//'):
                out.append((f, k, line.strip()))
    return out

def functions():
    for f, s in text.items():
        for m in re.finditer(r'^( *)(?:pub(?:\(crate\))? )?fn (\w+)(?:<[^>]*>)?\((.*?)\)(.*?)^\1\{\n(.*?)^\1\}$', s, re.M | re.S):
            yield f, s[:m.start()].count('\n') + 1, m.group(2), m.group(3), m.group(5)

def counters():
    out = []
    for f, s in text.items():
        ls = s.split('\n')
        for k, line in enumerate(ls):
            m = re.match(r'^( *)while (.*) \{$', line)
            if not m: continue
            end = next(j for j in range(k + 1, len(ls)) if ls[j].startswith(m.group(1) + '}'))
            body = ls[k + 1:end]
            v = [w for w in re.findall(r'\b[a-z_]\w*\b', m.group(2))]
            if any(re.match(r'^\s*(\w+) (\+=|-=) 1;$', b) and b.split()[0] in v for b in body) or any(re.match(r'^\s*(\w+) = \w+\(\1\.0 \+ 1\);$', b) for b in body):
                out.append((f, k + 1, line.strip()))
    return out

def twins():
    seen = collections.defaultdict(list)
    for f, k, name, args, body in functions():
        flat = re.sub(r'\b\d+\b|\b[A-Z][A-Z_0-9]+\b|\bu8\b|\bu32\b|\bu64\b|\busize\b|\b[A-Z]\w+\b', '#', body)
        flat = re.sub(r'\b[a-z_]\w*\b(?!\()', 'v', flat)
        if len(flat.split()) >= 12: seen[(flat, args.count(':'))].append((f, k, name))
    return [p for group in seen.values() if len({n for _, _, n in group}) and len(group) > 1 for p in group[1:]]

points = [
    ('1a flag or verdict beside values', lines(r'^\s*(pub )?(verdict|fits|divides|valid|found|full|differ|counted|number): (bool|u32|Verdict|HouayletanVerdict),')),
    ('1b own enums of the shape of Option or Result', lines(r'^\s*Refused \{ number|^\s*Accepted \{|^\s*Missing,')),
    ('1c constants that are numbers of refusals', lines(r'^pub const (?!WORD|NEWEST|LARGEST|BYTE)[A-Z_]+: u32 = \d+;')),
    ('1d parameters that are numbers of refusals', lines(r'\bnumber: u32\b[,)]')),
    ('2 bodies alike but for names, types and constants', twins()),
    ('3 loops that count by hand', counters()),
    ('4a derives that stop at Clone, Copy', lines(r'^#\[derive\(Clone, Copy\)\]')),
    ('4b comparing, converting and copying by hand', [(f, k, n) for f, k, n, _, _ in functions() if n in ('same', 'is_same', 'least', 'wide', 'from_word', 'flag', 'flat', 'flat_count', 'flat_float', 'flat_diagram', 'flat_cut', 'flat_amount', 'flat_answer', 'flat_target', 'flat_stored', 'flat_compared', 'is_digit', 'copy')]),
    ('5a a node as three parameters', [(f, k, n) for f, k, n, a, _ in functions() if re.search(r'var: BddVariable,\s*low: BddPointer,\s*high: BddPointer', a)]),
    ('5b nodes and vars beside words', [(f, k, n) for f, k, n, a, _ in functions() if re.search(r'words: &\[u32\]', a) and re.search(r'nodes: usize,\s*vars: u32', a)]),
    ('5c base and capacity beside a room', [(f, k, n) for f, k, n, a, _ in functions() if re.search(r'base: usize,\s*capacity: usize', a)]),
    ('6 a slice with a length or a place beside it', [(f, k, n) for f, k, n, a, _ in functions() if re.search(r'&(mut )?\[u(8|32)\],\s*(at|count|n|end): usize', a)]),
    ('7 a bool that chooses what is done', lines(r'\b(valuations|above|keep|as_is): bool\b')),
]
for name, places in points:
    print(f'{len(places):5d}  {name}')
    if listing:
        for p in places: print('         ', *p)
