#!/usr/bin/env python3
"""Counts, in crates/*/src, the places that docs/DESIGN-PASS.md speaks of. `python3 tools/forms.py [ROOT]` prints the counts,
`python3 tools/forms.py -l [ROOT]` every place with its file and line. It only reads, and goes by text: what it prints is a list to be read."""
import re
import sys
from collections import defaultdict
from pathlib import Path

WORD = re.compile(r"[A-Za-z_]\w*|\d[\w]*")
KEEP = set('let mut if else while loop for in match return fn pub as true false break continue struct enum impl usize'.split()) - {'usize'}
PLAIN = r'(?:pub(?:\([a-z]+\))? )?'


def functions(text):
    """(line, name, parameters, clauses, body) of each function."""
    for m in re.finditer(r'^( *)' + PLAIN + r'(?:extern "C" )?fn (\w+)', text, re.M):
        at = text.index('(', m.end())
        depth, i = 0, at
        while True:
            depth += {'(': 1, ')': -1}.get(text[i], 0)
            i += 1
            if depth == 0:
                break
        parameters = text[at + 1:i - 1]
        open_at = re.compile(r'^' + m[1] + r'\{$|\{$', re.M).search(text, i)
        begin = open_at.end() if open_at else i
        end = re.compile(r'^' + m[1] + r'\}', re.M).search(text, begin)
        yield text[:m.start()].count('\n') + 1, m[2], parameters, text[i:begin], text[begin:end.start() if end else begin]


def split(parameters):
    parts, depth, last = [], 0, ''
    for c in parameters:
        depth += {'(': 1, '<': 1, '[': 1, ')': -1, '>': -1, ']': -1}.get(c, 0)
        if c == ',' and depth == 0:
            parts.append(last.strip())
            last = ''
        else:
            last += c
    return [p for p in parts + [last.strip()] if p]


def shape(body):
    lines = [re.sub(r'\s+', ' ', l.split('//')[0]).strip() for l in body.splitlines()]
    return tuple(WORD.sub(lambda m: m.group() if m.group() in KEEP else 'x', l) for l in lines if l)


def main():
    listed = '-l' in sys.argv[1:]
    rest = [a for a in sys.argv[1:] if a != '-l']
    root = Path(rest[0] if rest else '.')
    places = defaultdict(list)
    bodies = defaultdict(list)
    groups = defaultdict(list)
    for f in sorted(root.glob('crates/*/src/**/*.rt')):
        text = f.read_text()
        name = f.relative_to(root)

        def note(point, line, what):
            places[point].append(f'{name}:{line}: {what}')

        for k, l in enumerate(text.splitlines(), 1):
            code = l.split('//')[0]
            if re.match(r'\s*' + PLAIN + r'enum \w+', code):
                variants = re.search(re.escape(l) + r'\n((?:.*\n)*?)\}', text)[1]
                heads = re.findall(r'^    (\w+)(\(|\{| \{|,)', variants, re.M)
                if len(heads) == 2:
                    note('1a enums of two variants (Option, Result)', k, code.strip())
            if re.search(r'\bRefused\(\d+\)|refus\w*\((?:[^)]*\W)?\d+\)|not_compiled\(\d+\)', code):
                note('1b refusals by a number', k, code.strip())
            if re.search(r'\b(Refused|Err)\(\w+\) =>', code):
                note('1c refusals handed on by a match', k, code.strip())
            if re.match(r'\s*(let \w+ = )?(while|loop)\b', code):
                note('3 loops by hand', k, code.strip())
            if re.search(r'\bif (\w+) (<=|<) (\w+) \{ \1 \} else \{ \3 \}|\bif (\w+) (<=|<) (\w+) \{ \6 \} else \{ \4 \}', code):
                note('4 order, equality, conversion by hand', k, code.strip())
            if re.search(r'\* 256 \+|/ 256|\* 65536|/ 65536|% 256', code):
                note('4 order, equality, conversion by hand', k, code.strip())
            if re.search(r'^\s*\d+ => ', code):
                note('7 switches on a number', k, code.strip())
        for line, fn, parameters, clauses, body in functions(text):
            own = split(parameters)
            if len(own) >= 6:
                note('5a functions of six parameters and more', line, f'{fn}: {len(own)}')
            names = {p.split(':')[0].replace('mut ', '').strip() for p in own}
            if {'table', 'firsts'} <= names:
                note('5b functions that take a table beside its rows', line, fn)
            if {'cells', 'count'} <= names or {'text', 'at'} <= names and 'cells' in names:
                note('6 a buffer with a length beside it', line, fn)
            s = shape(body)
            if len(s) >= 2 or sum(map(len, s)) > 40:
                bodies[s].append(f'{name}:{line}: {fn}')
    for s, found in bodies.items():
        if len(found) > 1:
            for p in found[1:]:
                places['2 bodies that differ in names and numbers alone'].append(p + '  like  ' + found[0])
    for point in sorted(places):
        print(f'{point}: {len(places[point])}')
        if listed:
            for p in places[point]:
                print('    ' + p)


if __name__ == '__main__':
    main()
