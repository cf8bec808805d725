#!/usr/bin/env python3
"""Counts the places that docs/DESIGN-PASS.md speaks of.

    python3 tools/places.py [-v] [COMMIT]

Without COMMIT the files as they lie; -v lists the places of points 1, 2, 3, 5 and 6.
"""
import collections, re, subprocess, sys

VERBOSE = '-v' in sys.argv
COMMIT = next((a for a in sys.argv[1:] if not a.startswith('-')), None)
TABLES = ('regions', 'externs', 'parameters', 'nodes', 'arguments', 'instructions')


def git(*args):
    return subprocess.run(('git',) + args, capture_output=True, text=True, check=True).stdout


def files(pattern):
    names = git('ls-tree', '-r', '--name-only', COMMIT).split() if COMMIT else git('ls-files').split()
    for name in names:
        if re.fullmatch(pattern, name):
            try:
                yield name, git('show', f'{COMMIT}:{name}') if COMMIT else open(name).read()
            except FileNotFoundError:
                pass


def say(label, places):
    print(f'{label}: {len(places)}')
    if VERBOSE:
        for place in places:
            print('    ' + place)


SOURCES = dict(files(r'crates/[^/]+/src/.*\.rt'))
CODE = {f: re.sub(r'//[^\n]*', '', t) for f, t in SOURCES.items()}


def line(name, text, at):
    return f'{name}:{text.count(chr(10), 0, at) + 1}'


def enums():
    for name, text in CODE.items():
        for m in re.finditer(r'(?m)^(?:pub )?enum (\w+)[^{]*\{(.*?)^\}', text, re.S):
            variants = re.findall(r'(?m)^    (\w+)(\(|\s*\{)?', m.group(2))
            yield line(name, text, m.start()), m.group(1), variants


def functions():
    for name, text in SOURCES.items():
        for m in re.finditer(r'(?ms)^( *)(?:pub(?:\(crate\))? )?(?:extern "C" )?fn (\w+)((?:(?!\bfn |;$).)*?)(?: |^\1)\{\n(.*?)^\1\}', text):
            yield name, m.group(2), m.group(3), m.group(4)


def shape(body):
    body = re.sub(r'//[^\n]*', '', body)
    tokens = re.findall(r'b"(?:[^"\\]|\\.)*"|\w+|[^\w\s]', body)
    keep = {'if', 'else', 'while', 'for', 'in', 'match', 'let', 'mut', 'return', 'loop', 'break'}
    return tuple(t if t in keep or not re.match(r'[\w"]|b"', t) else '_' for t in tokens)


def twins():
    groups = collections.defaultdict(list)
    for name, fn, _, body in functions():
        s = shape(body)
        if len(s) >= 30:
            groups[s].append(f'{name} {fn}')
    return [f'{len(g)}: ' + ', '.join(g) for g in groups.values() if len(g) > 1]


print('at', COMMIT or 'the files as they lie')
option_or_result = [f'{at} {n} {{ ' + ', '.join(v + (p or '').strip() for v, p in vs) + ' }'
                    for at, n, vs in enums() if len(vs) == 2 and any(p for _, p in vs)]
say('1  enums of two variants with a value (Option or Result by shape)', option_or_result)
say('1  answers with a refusal or an error among three or more variants',
    [f'{at} {n}' for at, n, vs in enums() if len(vs) > 2 and {'Refused', 'Error', 'Not', 'Failed'} & {v for v, _ in vs}])
say('1  refusals as numbers', [line(f, t, m.start()) for f, t in CODE.items()
                              for m in re.finditer(r'Refus(?:ed|al)\(u64|\brefusal: u64|pub const \w+: u64 = \d+;(?=)', t)
                              if 'const' not in m.group(0) or f.endswith('tables/src/refusal.rt')])
say('1  numbers for kinds, families, operators, forms, tags, shapes, codes',
    [line(f, t, m.start()) for f, t in CODE.items() if not f.endswith('tables/src/refusal.rt')
     for m in re.finditer(r'pub const \w+: u64 = \d+;', t)])
say('2  groups of functions with bodies of one shape (30 tokens or more)', twins())
whiles = [line(f, t, m.start()) + ' ' + m.group(1) for f, t in CODE.items() for m in re.finditer(r'\bwhile ([^{\n]*)', t)]
say('3  while loops', whiles)
print('3  for loops:', sum(len(re.findall(r'\bfor [\w&(]+[^\n]* in ', t)) for t in CODE.values()))
say('4  free functions of std::num', [line(f, t, m.start()) for f, t in CODE.items() for m in re.finditer(r'\bstd::num::\w+', t)])
print('4  derives beyond Clone, Copy and Drop:', sum(len(re.findall(r'derive\([^)]*(?:PartialEq|Ord|Debug|Default)', t)) for t in CODE.values()))
say('5  functions that take four or more of the six tables apart',
    [f'{f} {n}' for f, n, head, _ in functions() if sum(bool(re.search(rf'\b{t}: &\[u64\]', head)) for t in TABLES) >= 4])
say('5  functions that take the text and its names apart', [f'{f} {n}' for f, n, head, _ in functions() if 'source: &[u8]' in head and 'names: &' in head])
say('6  functions that take a buffer and how much of it is used', [f'{f} {n}' for f, n, head, _ in functions() if re.search(r'&(?:mut )?\[\w+(?:; \w+)?\]', head) and re.search(r'\b(count|length|used): (usize|u64)', head)])
proofs = dict(files(r'crates/[^/]+/proofs/.*\.antt'))
answers = {f: t for f, t in proofs.items() if f.endswith('/Answers.antt')}
print('8  proof files:', len(proofs), 'of them Answers', len(answers), 'and Invariants', sum(f.endswith('/Invariants.antt') for f in proofs))
print('8  answers:', sum(len(re.findall(r'(?m)^pub [^\n]* : goal\.', t)) for t in answers.values()), 'lines of proofs:', sum(t.count('\n') for t in proofs.values()))
print('   lines of src:', sum(t.count('\n') for t in SOURCES.values()), 'of specs:', sum(t.count('\n') for _, t in files(r'crates/[^/]+/specs/.*\.antt')))
