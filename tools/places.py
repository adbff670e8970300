#!/usr/bin/env python3
"""places.py [POINT]: the places in crates/*/src and proofs that docs/DESIGN-PASS.md counts, point by point; with a point, its lines. From the repository's root."""
import collections
import glob
import re
import sys

WANTED = sys.argv[1] if len(sys.argv) > 1 else None
SOURCES = {f: open(f, encoding='utf8').read() for f in sorted(glob.glob('crates/*/src/**/*.rt', recursive=True))}
PROOFS = {f: open(f, encoding='utf8').read() for f in sorted(glob.glob('crates/*/proofs/**/*.antt', recursive=True))}
FOUND = collections.OrderedDict()


def lines(point, pattern, files=SOURCES):
    """Each line with the pattern is a place."""
    found = FOUND.setdefault(point, [])
    for name, text in files.items():
        for i, line in enumerate(text.split('\n'), 1):
            if re.search(pattern, line) and not line.lstrip().startswith(('//', '--')):
                found.append(f'{name}:{i}: {line.strip()}')


def functions():
    """Name, place, parameters and contract of each function."""
    for name, text in SOURCES.items():
        for m in re.finditer(r'^\s*(?:pub(?:\([a-z]+\))? )?(?:extern "C" )?fn (\w+)(?:<[^(]*>)?\(', text, re.M):
            depth, k = 1, m.end()
            while depth:
                depth += {'(': 1, ')': -1}.get(text[k], 0)
                k += 1
            parameters = [' '.join(p.split()) for p in re.split(r',(?![^<\[]*[>\]])', text[m.end():k - 1]) if p.strip()]
            body = text.find('\n' + re.match(r'\s*', m.group(0).split('\n')[-1]).group(0) + '{', k)
            yield f"{name}:{text.count(chr(10), 0, m.end()) + 1}", m.group(1), parameters, text[k:body if body > 0 else k]


NUMBERED = r'\b(kind|clef|symbol|left|right|grace|duration|step|which|shape|side|d|number|stop|sort|word): (u8|u16|u32|i32|usize)\b'
lines('1 a variant that means none', r'^\s+(None|Nothing|Refused|Unknown|OutOfRange|Missing),')
lines('1 a number for a kind or a refusal, as a field or parameter', NUMBERED)
lines('1 a number tested for a kind, a refusal or none', r'\b(stop|number|kind|sort|grace|clef|symbol|step|duration|which)\b(\.\w+)? (==|!=) (\d+|[A-Z_]+)\b')
lines('1 a constant that numbers a kind or means none', r'const (NONE|NO_\w+|ALL|LINE|MARKS|NOTES|BARS|WHY|OCTAVE|SIGN|CHORD|BARLINE|WHOLE_BARS?|PATTERN|KEY|CLEF|GRACE\w*|REST|BEAM_\w+|GROUP_\w+|FIGURE_MARK|REPEAT|OTHER|WHOLE_BAR_REST): (u8|u16|u32|i8|usize) =')

at = collections.defaultdict(list)
shape = lambda l: re.sub(r"[A-Za-z_]\w*", 'n', re.sub(r'\d+', '0', l))
for name, text in SOURCES.items():
    kept = [(i, shape(l)) for i, l in enumerate((re.sub(r'//.*', '', l).strip() for l in text.split('\n')), 1) if len(l) > 7 and not l.startswith(('use ', 'ghost use', 'pub mod', 'mod '))]
    for k in range(len(kept) - 7):
        at[tuple(x[1] for x in kept[k:k + 8])].append((name, kept[k][0]))
last, twins = {}, FOUND.setdefault('2 runs of eight lines of the same shape, each pair of places once', [])
for places in at.values():
    for x, y in ((x, y) for x in places for y in places if x < y):
        if last.get((x[0], y[0])) not in ((x[1] - 1, y[1] - 1), (x[1], y[1])) and not (x[0] == y[0] and y[1] - x[1] < 8):
            twins.append(f'{x[0]}:{x[1]} ~ {y[0]}:{y[1]}')
        last[(x[0], y[0])] = (x[1], y[1])

lines('3 while loops', r'^\s*while ')
lines('3 for loops over an index', r'^\s*for \w+ in [\w.()\[\] +-]+\.\.')

lines('4 a conversion, a comparison or a text of a value written by hand', r'fn (\w+_(number|words?|name)|say_(clef|fifths|letter|sign|meter|side|symbol|kind|duration|dots|length|place|pitch|alteration)|magnitude|wide|byte_at|word_at|natural|decimal\w*|is_same|same_\w+|equals?|step_of|duration_of|clef_number)\b')

facts, groups = collections.defaultdict(list), collections.defaultdict(list)
for place, name, parameters, contract in functions():
    for clause in re.findall(r'requires (?:\w+ )?\{([^}]*)\}', contract):
        for fact in {' '.join(f.split()).strip('()') for f in clause.split('×')}:
            facts[re.sub(r'\.(old|new|now)\b', '', fact)].append(f'{place} {name}')
    named = sorted(p for p in parameters if ':' in p and 'out: &mut W' not in p)
    for x, y in ((x, y) for x in named for y in named if x < y):
        groups[f'{x}, {y}'].append(f'{place} {name}')
FOUND['5 a fact required by three functions or more'] = [f'{k}: {len(v)}' for k, v in sorted(facts.items()) if len(v) > 2]
FOUND['5 a pair of parameters of three functions or more'] = [f'{k}: {len(v)}' for k, v in sorted(groups.items()) if len(v) > 2]

lines('6 a local buffer of a fixed size', r'let mut \w+ = \[0\w*; ')
lines('6 a table of numbers, lent', r'\w+: &(mut )?\[(usize|u32)\]')
lines('6 a slice with a count or place beside it', r'&(mut )?\[\w+\], (\w+: [^,)]+, )?(count|size|at|from|start|cells|marks): (usize|u32)\b')

lines('7 a parameter or an enum that says which step to run', r'(enum (Sought|Next|Notation|Where|Found)\b|: (Sought|Notation|Where|Found)\b|\b\w+: bool\b.*(\)|,)$)')

lines('8 answers', r'^pub .* : goal\.', {f: t for f, t in PROOFS.items() if f.count('/') > 3})
FOUND['8 lines of proofs of functions'] = [f'{f}: {t.count(chr(10))}' for f, t in PROOFS.items() if f.count('/') > 3]
FOUND['8 lines of lemmas'] = [f'{f}: {t.count(chr(10))}' for f, t in PROOFS.items() if f.count('/') == 3]

for point, found in FOUND.items():
    count = sum(int(l.rsplit(': ', 1)[1]) for l in found) if point.startswith('8 lines') else len(found)
    if WANTED is None or point.startswith(WANTED):
        print(f'{count:6d}  {point}')
        if WANTED is not None:
            print('\n'.join('        ' + l for l in found))
