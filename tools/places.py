#!/usr/bin/env python3
"""Counts, in crates/*/src, the places of the points of docs/DESIGN-PASS.md, and with -v lists them.

    python3 tools/places.py [-v] [POINT]

It reads the source by lines and brackets, no more: what it counts is where a reader should look.
"""
import glob
import re
import sys
from collections import defaultdict

ITEM = re.compile(r'^( *)(pub(?:\([a-z]+\))? )?(?:unsafe )?(?:extern "C" )?fn (\w+)', re.M)


def without_comments(text):
    return re.sub(r'//[^\n]*', '', text)


def block(text, at):
    """The text between the brace that opens at or behind a place and the one that closes it, and where that is."""
    start = text.index('{', at)
    depth = 0
    for i in range(start, len(text)):
        if text[i] == '{':
            depth += 1
        elif text[i] == '}':
            depth -= 1
            if depth == 0:
                return text[start + 1:i], i + 1
    return text[start + 1:], len(text)


class Function:
    """A function: its file and name, its parameters, its clauses and its body."""

    def __init__(self, path, text, found):
        self.path, self.name, self.public = path, found.group(3), bool(found.group(2))
        at = text.index('(', found.end())
        depth, i = 0, at
        while True:
            depth += {'(': 1, ')': -1}.get(text[i], 0)
            if depth == 0:
                break
            i += 1
        self.parameters = [p.strip() for p in re.split(r',(?![^<(\[]*[>)\]])', text[at + 1:i]) if p.strip()]
        rest = text[i + 1:]
        self.clauses = []
        here = 0
        while True:
            clause = re.match(r'[^{;]*?\b(requires|ensures|decreases)\b[^{]*', rest[here:])
            if not clause:
                break
            body, end = block(rest, here + clause.end() - 1 if rest[here + clause.end() - 1] == '{' else here + clause.end())
            self.clauses.append((clause.group(1), ' '.join(body.split())))
            here = end
        self.body, _ = block(rest, here) if '{' in rest[here:] else ('', 0)

    def __str__(self):
        return f'{self.path}: {self.name}'


def sources():
    for path in sorted(glob.glob('crates/*/src/**/*.rt', recursive=True)):
        with open(path, encoding='utf-8') as f:
            yield path, without_comments(f.read())


def functions():
    for path, text in sources():
        for found in ITEM.finditer(text):
            yield Function(path, text, found)


def point_1():
    """Enums of two variants of which one holds a value or both do; functions that answer 0 or another number for 'none'; constants that are codes."""
    for path, text in sources():
        for found in re.finditer(r'\benum (\w+)', text):
            body, _ = block(text, found.end())
            variants = [v.strip() for v in re.split(r',(?![^()]*\))', body) if v.strip()]
            if len(variants) == 2 and any('(' in v for v in variants):
                yield f'enum {path}: {found.group(1)}'
    told = re.compile(r'\b(or 0\b|0 for none|or 65\b|or 16384\b|0, or|no type|or none\b|0 where|3 for none|2 for none)')
    for path in sorted(glob.glob('crates/*/src/**/*.rt', recursive=True)):
        with open(path, encoding='utf-8') as f:
            lines = f.read().split('\n')
        for i, line in enumerate(lines):
            if ITEM.match(line):
                j = i
                while j > 0 and lines[j - 1].startswith(('//', '#')):
                    j -= 1
                answers = re.search(r'-> (u8|u16|u32|usize)\b', ' '.join(lines[i:i + 14]).split('{')[0])
                if told.search(' '.join(lines[j:i])) and answers:
                    yield f'number {path}: {ITEM.match(line).group(3)}'
    for path, text in sources():
        codes = re.findall(r'^pub(?:\([a-z]+\))? const (\w+): u(?:8|16|size) = (?:\d+|\w+::\w+(?: as \w+)?);', text, re.M)
        if len(codes) >= 3 and re.search(r'(declaration|item|kind|operation|record|refusal|statement|token|types|kinds|rules)\.rt$', path):
            yield f'codes {path}: {len(codes)} constants'


def point_2():
    """Functions of the same shape: bodies equal once names, numbers and types are left out."""
    shapes = defaultdict(list)
    for f in functions():
        order = {}
        shape = re.sub(r"b'[^']*'|\"[^\"]*\"|\b\d\w*\b", '0', f.body)
        shape = re.sub(r'\b\w+(?:::\w+)*\b', lambda m: order.setdefault(m.group(0), f'x{len(order)}'), shape)
        shape = ' '.join(shape.split())
        if len(shape) > 60:
            shapes[shape].append(str(f))
    for shape, found in sorted(shapes.items(), key=lambda s: s[1]):
        if len(found) > 1:
            yield ' = '.join(found)


def point_3():
    """Loops `while` that move a name of their test by 1."""
    for f in functions():
        for found in re.finditer(r'\bwhile ([^{]*)\{', f.body):
            body, _ = block(f.body, found.end() - 1)
            for name in set(re.findall(r'\b[a-z]\w*\b', found.group(1))):
                if re.search(rf'\b{name} [+-]= 1;|\b{name} = {name} [+-] 1;', body):
                    yield f'{f}: while {found.group(1).strip()}'
                    break


def point_4():
    """Functions whose body only converts, picks the lower or the higher, joins truth values, says true or false by cases, or copies field by field."""
    for f in functions():
        body = ' '.join(f.body.split())
        if re.fullmatch(r'\w+(\([^()]*\))? as (u16|u32|u64|usize|i64)', body):
            yield f'converts {f}'
        elif re.fullmatch(r'(if [^{]*\{ (return )?[^;{}]*;? \} )+(else \{ )?(true|false|[^;{}]*)( \})?', body) and re.search(r'-> bool', ' ') is None and \
                re.search(r'\{ (return )?(true|false);? \}|(^|\} )(true|false)$|else \{ (true|false) \}', body):
            yield f'truth {f}'
        elif re.search(r'=> true, _ => false|=> false, _ => true', body):
            yield f'matches {f}'
        elif re.fullmatch(r'if (\S+) < (\S+) \{ (return )?(\1|\2);? \}( else \{)? (\1|\2)( \})?', body):
            yield f'bound {f}'
        elif re.fullmatch(r'\w+ \{( (\w+): \w+\.\2,){3,} \}', body):
            yield f'copies {f}'


def point_5():
    """Functions of eight or more parameters; clauses that three or more functions have."""
    clauses = defaultdict(list)
    for f in functions():
        if len(f.parameters) >= 8:
            yield f'parameters {f}: {len(f.parameters)}'
        for kind, clause in f.clauses:
            if kind == 'requires':
                for part in re.split(r' × (?![^(]*\))', clause):
                    clauses[part.strip('() ')].append(str(f))
    for clause, found in sorted(clauses.items()):
        if len(found) >= 3:
            yield f'clause {clause}: {len(found)} functions'


def point_6():
    """Functions that take an array of a limit's size and beside it how much of it counts."""
    for f in functions():
        arrays = [p for p in f.parameters if re.search(r'&(mut )?\[\w+; ', p)]
        counts = [p for p in f.parameters if re.fullmatch(r'(n|d|s|k|count|depth): usize', p)]
        if arrays and counts:
            yield f'{f}: {len(arrays)} arrays, {", ".join(c.split(":")[0] for c in counts)}'


def point_7():
    """Numbers that say which step to run, and tables of functions."""
    for f in functions():
        if re.search(r'\bmatch (step|stage|phase)\s*\{[^}]*\b\d+ =>', f.body) or re.search(r'\[fn\(', f.body):
            yield str(f)


def point_8():
    """Files of proofs."""
    for path in sorted(glob.glob('crates/*/proofs/**/*.antt', recursive=True)):
        yield path


POINTS = {'1': point_1, '2': point_2, '3': point_3, '4': point_4, '5': point_5, '6': point_6, '7': point_7, '8': point_8}


def main():
    wanted = [a for a in sys.argv[1:] if a in POINTS] or sorted(POINTS)
    for point in wanted:
        places = list(POINTS[point]())
        print(f'{point}: {len(places)}')
        kinds = defaultdict(int)
        for place in places:
            kinds[place.split()[0]] += 1
        if point in '145':
            print('   ' + ', '.join(f'{kind} {n}' for kind, n in kinds.items()))
        if '-v' in sys.argv:
            for place in places:
                print('   ' + place)


main()
