#!/usr/bin/env python3
"""Counts in src/ the places that today's Rattle may write more plainly, point by point.

usage: tools/places.py [FOLDER]     (the top of a checkout; none: this one)

Each line is a place to look at, and not yet a judgement: docs/DESIGN-PASS.md says what became of each.
"""
import pathlib, re, sys
from collections import defaultdict

top = pathlib.Path(sys.argv[1] if len(sys.argv) > 1 else pathlib.Path(__file__).resolve().parent.parent)
crates = [l.split(':')[0].strip() for l in (top / 'crates.txt').read_text().splitlines() if l.strip() and not l.startswith('#')]
files = [f for c in crates for f in sorted((top / 'crates' / c / 'src').rglob('*.rt'))]


def name(f):
    return str(f.relative_to(top / 'crates'))


def lines(pattern):
    found = []
    for f in files:
        for i, l in enumerate(f.read_text().splitlines(), 1):
            if re.search(pattern, l) and not l.lstrip().startswith('//') and 'ghost' not in l and 'ensures' not in l and 'requires' not in l:
                found.append(f'{name(f)}:{i}: {l.strip()}')
    return found


HEAD = re.compile(r'^( *)(?:pub(?:\(crate\))? )?fn (\w+)', re.M)


def functions():
    """Each function: its file, its name, its head with the clauses, its body."""
    for f in files:
        text = f.read_text()
        for m in HEAD.finditer(text):
            end = re.compile(r'^' + m.group(1) + r'\}|\{\}$', re.M).search(text, m.end())
            whole = text[m.end():end.start()] if end else ''
            # the body begins at a brace that ends a line, where the head has come to its end
            body = re.search(r'(^ *|[^{ ] )\{\n', whole, re.M)
            if body and ';' not in re.sub(r'\[[^\]]*\]', '', whole[:body.start()]):
                yield f, m.group(2), whole[:body.start()], whole[body.end():]


WORDS = set('let mut for in if else match return while fn Some None Ok Err self true false as'.split())


def shape(body):
    """The body with its own names and numbers taken out, so that twins look alike."""
    names = {}
    def put(m):
        w = m.group(0)
        return w if w in WORDS else names.setdefault(w, f'x{len(names)}') if not w.isdigit() else 'N'
    body = re.sub(r'//.*', '', body)
    return re.sub(r'\s+', ' ', re.sub(r'[A-Za-z_]\w*(?:::\w+)*|\d+', put, body)).strip()


def twins():
    same = defaultdict(list)
    for f, n, _, body in functions():
        if len(body.split()) >= 4 and not f.name.startswith('tests'):
            same[shape(body)].append(f'{name(f)}::{n}')
    return [' = '.join(v) for v in same.values() if len(v) > 1]


def repeated_clauses():
    seen = defaultdict(set)
    for f, n, head, _ in functions():
        for m in re.finditer(r'requires (?:\w+ )?\{ (.*) \}', head):
            for part in re.split(r' × ', re.sub(r'\((?=[^()]*(?:≤|<|≡))|\)(?= ×|$)', '', m.group(1))):
                seen[name(f).split('/')[0], part.strip('() ')].add(n)
    return [f'{c}: {p}: {", ".join(sorted(v))}' for (c, p), v in seen.items() if len(v) >= 3]


def travelling():
    seen = defaultdict(set)
    for f, n, head, _ in functions():
        params = re.findall(r'(\w+): ([^,\n]*(?:<[^>]*>)?)', head.split('ensures')[0].split('requires')[0].split('->')[0])
        params = sorted({(a, b.strip(' )')) for a, b in params if a not in ('rt', 'heap')})
        for i, a in enumerate(params):
            for b in params[i + 1:]:
                seen[name(f).split('/')[0], a, b].add(n)
    return [f'{c}: {a[0]}: {a[1]} with {b[0]}: {b[1]}: {", ".join(sorted(v))}' for (c, a, b), v in seen.items() if len(v) >= 3]


def fields():
    """Arrays, lists and counts that stand in structs."""
    found = []
    for f in files:
        for m in re.finditer(r'^(?:pub(?:\(crate\))? )?struct (\w+)[^{;]*\{\n((?:.|\n)*?)^\}', f.read_text(), re.M):
            for l in m.group(2).splitlines():
                if re.match(r'\s+(pub(\(crate\))? )?\w+: (\[.*; .*\]|Vec<.*>|&.*\[.*\]),$', l):
                    found.append(f'{name(f)}::{m.group(1)}: {l.strip()}')
    return found


def loops_for_methods():
    plain = r'(?:\s*let [^\n]*\n)*\s*for (?:.|\n)*?\{\n\s*(?:if (?:.|\n)*?return (?:true|false|Some\(.*\)|\w+);\s*\}|\*\w+ = .*;)\s*\}\s*(?:true|false|None|\w+)?\s*'
    return [f'{name(f)}::{n}' for f, n, _, b in functions() if re.fullmatch(plain, b)]


points = [
    ('1a', 'flags, in fields and parameters', lines(r'^\s*(pub(\(crate\))? )?\w+: bool,$')),
    ('1b', 'numbers that stand for none or for a kind', lines(r'=> 0,$|return 0;|else \{ 0 \}|unwrap_or\(0\)|map_or\(0,|^const (EITHER|PAPER)|^pub const (PRINTING|LOADING|HAS_PAPER|IS_OUT)')),
    ('1c', 'enums', lines(r'^(pub(\(crate\))? )?enum ')),
    ('2', 'functions of one shape, names and numbers aside', twins()),
    ('3a', 'loops over numbers, and while', lines(r'\bwhile\b|\bloop\b|\bfor \w+ in \(?[\w.()]*\.\.')),
    ('3b', 'counters and places moved on by hand', lines(r'^\s*(let mut (at|low|floor|changed|accepted|ended)\b|\w+ \+= 1;|\w+ = \w+\.saturating_add)')),
    ('3c', 'loops that a method of the library does', loops_for_methods()),
    ('4a', 'comparisons, copies and printing of types, written out', lines(r'^impl(<.*>)? (PartialEq|Eq|PartialOrd|Ord|Clone|Copy|Debug)\b')),
    ('4b', 'functions that compare, convert or print', lines(r'fn (same\w*|of|at|phase|show|digit|number_of|name)\(')),
    ('4c', 'conversions by as', lines(r'\bas (u8|u16|u32|usize|char)\b')),
    ('5a', 'requirements in three contracts or more', repeated_clauses()),
    ('5b', 'parameters together in three functions or more', travelling()),
    ('6', 'arrays, lists and slices in structs', fields()),
    ('7', 'function tables, and steps chosen by a number or a word', lines(r': fn\(|\bdyn\b|\bmatch (j|call|step|kind)\b|starts_with\(')),
]
for number, title, found in points:
    print(f'{number} {title}: {len(found)}')
    for l in found:
        print('   ', l)
