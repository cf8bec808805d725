#!/usr/bin/env python3
"""Lists what changed since a commit, old and new one under the other, as docs/DESIGN-PASS-CONTRACTS.md has it.

    python3 tools/sidebyside.py COMMIT > docs/DESIGN-PASS-CONTRACTS.md
"""
import re, subprocess, sys

COMMIT = sys.argv[1]


def git(*args):
    return subprocess.run(('git',) + args, capture_output=True, text=True, check=True).stdout


def old_files(pattern):
    return {n: git('show', f'{COMMIT}:{n}') for n in git('ls-tree', '-r', '--name-only', COMMIT).split() if re.fullmatch(pattern, n)}


def new_files(pattern):
    return {n: open(n).read() for n in git('ls-files').split() if re.fullmatch(pattern, n)}


def one(text):
    return ' '.join(text.split()).replace(', )', ')').replace(',)', ')').replace('( ', '(')


def put(found, key, value):
    """Under the key, or, of the second of that name in a crate or a file, under `key (2)`."""
    found[next(k for k in [key] + [f'{key} ({i})' for i in range(2, 99)] if k not in found)] = value


def rust(files):
    found = {}
    for name, text in files.items():
        crate = name.split('/')[1]
        text = re.sub(r'//[^\n]*', '', text)
        for m in re.finditer(r'(?m)^( *)pub fn (\w+)', text):
            head = re.match(r'(?s)(.*?)(?: \{\n|\n' + m.group(1) + r'\{\n)', text[m.end():])
            put(found, f'{crate} {m.group(2)}', one('fn ' + m.group(2) + head.group(1)))
        for m in re.finditer(r'(?ms)^(?:#\[derive\([^\n]*\)\]\n)?(pub (?:struct|enum|trait) \w+.*?^\})', text):
            n = re.match(r'pub (?:struct|enum|trait) (\w+)', m.group(1)).group(1)
            put(found, f'{crate} {n}', one(m.group(1)))
        for m in re.finditer(r'(?m)^(pub type (\w+)[^;]*;)', text):
            put(found, f'{crate} {m.group(2)}', one(m.group(1)))
        for m in re.finditer(r'(?ms)^ *(pub const (\w+):.*?;)$', text):
            put(found, f'{crate} {m.group(2)}', one(m.group(1)))
    return found


def statement(block):
    """A lemma's type: what stands before its proof."""
    lines = block.split('\n')
    return '\n'.join(lines[:next((i for i, l in enumerate(lines) if i and re.match(r'(?:  )?\S', l) and not re.match(r'(?:  )?[)→]', l)), len(lines))])


def flat(text):
    """What a module in a module holds, as far in as what the outer one holds."""
    within, lines = [], []
    for l in text.split('\n'):
        far = len(l) - len(l.lstrip())
        while within and l.strip() and far <= within[-1]:
            within.pop()
        lines.append(l[2 * len(within):])
        if re.match('  +module ', l):
            within.append(far)
    return '\n'.join(lines)


def antt(files):
    found = {}
    for name, text in files.items():
        crate = name.split('/')[1]
        text = re.sub(r'(?m)^ *--[^\n]*\n', '', text)
        text = re.sub(r'(?m)^use [^\n]*\n', '', text)
        for block in re.split(r'(?m)^(?=(?:  )?(?:abbrev |unfoldable |pub )*(?:pub|data|record)\b)', flat(text)):
            m = re.match(r'\s*(?:abbrev |unfoldable )*(?:pub )?(?:record |data )?([^\s:]+)', block)
            if m and 'pub ' in block[:40]:
                put(found, f'{crate}/{name.split("/", 2)[2]} {m.group(1)}', one(statement(block) if '/proofs/' in name else block))
    return found


def tell(title, old, new):
    changed = [(k, old[k], new[k]) for k in old if k in new and old[k] != new[k]]
    gone = [(k, old[k]) for k in old if k not in new]
    come = [(k, new[k]) for k in new if k not in old]
    print(f'\n## {title}\n')
    print(f'{len(changed)} changed, {len(gone)} gone, {len(come)} new, {sum(old.get(k) == v for k, v in new.items())} the same.\n')
    for k, a, b in changed:
        print(f'- **{k}**\n  - `{a}`\n  - `{b}`')
    if gone:
        print('\nGone (docs/DESIGN-PASS.md says what states their promises):\n')
        for k, a in gone:
            print(f'- **{k}**: `{a}`')
    if come:
        print('\nNew:\n')
        for k, b in come:
            print(f'- **{k}**: `{b}`')


print('# What changed in signatures, clauses, types and definitions')
print(f'\nMade by `python3 tools/sidebyside.py {COMMIT}`: old above, new below. docs/DESIGN-PASS.md has the reasons.')
tell('Public functions, types and constants', rust(old_files(r'crates/[^/]+/src/.*\.rt')), rust(new_files(r'crates/[^/]+/src/.*\.rt')))
DEFINITIONS = r'crates/[^/]+/specs/(?!Lib\.antt).*\.antt'
tell('Definitions, claims and theorems of specs/', antt(old_files(DEFINITIONS)), antt(new_files(DEFINITIONS)))
LAWS = r'crates/[^/]+/proofs/(?!.*(?:Answers|Invariants|Lib)\.antt).*\.antt'
tell('Lemmas of proofs/', antt(old_files(LAWS)), antt(new_files(LAWS)))


def edits(files):
    return {f'{n.split("/")[1]} {n.split("/")[-1][:-5]}': text.strip().replace('\n', ' ⏎ ') for n, text in files.items()}


EDITS = r'crates/[^/]+/must-fail/.*\.edit'
tell('Must-fail edits', edits(old_files(EDITS)), edits(new_files(EDITS)))
