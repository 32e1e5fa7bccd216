#!/usr/bin/env python3
"""Counts, for each point of docs/DESIGN-PASS.md, the places in crates/*/src/*.rt that may be written in an older form.

    python3 tools/design_counts.py [ROOT] [POINT]

With a point it prints each place. Tests (base_tests) are counted as all others. A place that is found is not yet a fault: the page says what became of each.
"""
import collections
import glob
import os
import re
import sys

ROOT = sys.argv[1] if len(sys.argv) > 1 else '.'
POINT = sys.argv[2] if len(sys.argv) > 2 else None
FILES = sorted(glob.glob(os.path.join(ROOT, 'crates/*/src/*.rt')))

# One pattern a line; point 2, 5 and 8 are counted by shape, below.
LINES = {
    '1': [
        (r'\b(Ok|Err|Some)\((\w+)\) => (Ok|Err|Some)\(', 'an arm that rebuilds a Result or an Option'),
        (r'Err\(_\) => (Err|false|None)', 'an arm that turns one failure into another'),
        (r'let (Ok|Some)\(.*\) = .* else', 'let-else that refuses'),
        (r'\b\w+: bool\b', 'a flag that is kept or handed on'),
    ],
    '3': [
        (r'^\s*for .* in .*\.\.', 'a loop over a range'),
        (r'\.enumerate\(\)', 'a counted index'),
        (r'^\s*while ', 'a while loop'),
        (r'^\s*loop\b', 'a loop without a head'),
        (r'\+= 1;', 'a count by hand'),
    ],
    '4': [
        (r'^impl.*\b(PartialEq|Eq|PartialOrd|Ord|Clone|Copy|Debug|Hash|Default|From<\w+>|TryFrom<\w+>|fmt::Display) for', 'an impl by hand'),
        (r'fn (from_\w+|number|letter|text|of_day|weekday_of|read_mark)\(', 'a conversion with a name'),
        (r'\bif (same|has)\(', 'an equality by a function'),
        (r'as u(8|16|32)\b', 'a narrowing cast'),
    ],
    '6': [
        (r'^\s+(len|count): usize,$', 'a length beside its buffer'),
    ],
    '7': [
        (r'^(pub(\(crate\))? )?trait ', 'a trait'),
        (r'\bdyn\b|: fn\(', 'a dyn value or function pointer'),
        (r'match (kind|position|case\.kind)\b', 'a switch on a kind'),
    ],
}


def code(path):
    """The lines of a file without ghost lines and comments."""
    for number, line in enumerate(open(path), 1):
        text = line.split('//')[0].rstrip()
        if text and not text.lstrip().startswith('ghost '):
            yield number, text


def functions(path):
    """Each function's name and its text, its clauses left out."""
    lines = open(path).read().split('\n')
    i = 0
    while i < len(lines):
        head = re.match(r'^(\s*)(?:pub(?:\(crate\))? )?(?:final )?fn (\w+)', lines[i])
        if not head:
            i += 1
            continue
        body, end = [], head.group(1) + '}'
        while i < len(lines) and lines[i] != end and not lines[i].endswith('{}'):
            text = lines[i].split('//')[0].strip()
            if text and not re.match(r'(requires|ensures)\b', text):
                body.append(text)
            i += 1
        yield head.group(2), ' '.join(body)
        i += 1


def shape(text):
    """The text with names of fields, types and numbers made alike."""
    text = re.sub(r'b?"[^"]*"|b\'.\'|\d[\d_]*', '0', text)
    return re.sub(r'\b[A-Z]\w*|\b\w+\b', lambda m: 'T' if m.group(0)[0].isupper() else 'x', text)


def twins():
    groups = collections.defaultdict(list)
    for path in FILES:
        for name, text in functions(path):
            if len(text) > 90:
                groups[shape(text)].append((path, name))
    for places in groups.values():
        if len(places) > 1:
            for path, name in places:
                yield path, 0, f'{name}, one of {len(places)} functions of one shape'


def clauses():
    """Facts that stand word for word in three contracts or more."""
    found = collections.defaultdict(list)
    for path in FILES:
        for number, line in enumerate(open(path), 1):
            m = re.match(r'\s*(requires|ensures)(?: \w+)? \{ (.*) \}[;]?\s*$', line)
            if m:
                found[m.group(2)].append((path, number))
    for fact, places in found.items():
        if len(places) >= 3:
            for path, number in places:
                yield path, number, f'one of {len(places)}: {fact}'


def patterns(point):
    for path in FILES:
        for number, line in code(path):
            for pattern, what in LINES[point]:
                if re.search(pattern, line):
                    yield path, number, what


def proofs():
    files = [p for p in glob.glob(os.path.join(ROOT, 'crates/*/proofs/**/*.antt'), recursive=True) if '/out/' not in p]
    for p in sorted(files):
        yield p, 0, f'{len(open(p).read().splitlines())} lines'


def places(point):
    if point == '2':
        return list(twins())
    if point == '5':
        return list(clauses())
    if point == '8':
        return list(proofs())
    return list(patterns(point))


for point in ([POINT] if POINT else list('12345678')):
    found = places(point)
    if POINT:
        for path, number, what in found:
            print(f'{os.path.relpath(path, ROOT)}:{number}: {what}')
    extra = ''
    if point == '8':
        extra = f' of {sum(int(w.split()[0]) for _, _, w in found)} lines'
    print(f'point {point}: {len(found)}{extra}')
