#!/usr/bin/env python3
"""Random damage of every example file: both readers must say the same of each damaged file.

Usage: compare/damage/damage.py [--seed N] [--runs N] [--show N] [--program PATH]

N damaged copies (200) of each file under examples/ and of the program's own two files are read by the console's program,
`crates/stepper/out/stepper tables FILE` (`rt run` there builds it), and by reader.py, which is written from docs/FORMAT.md and the laboratory's paper.
Both must refuse the same line, or give the same six tables word for word. Each file is read undamaged first, and so
are the files of edges.py.
The last line has the counts; ends with 0 only if nothing differs.
"""
import argparse
import pathlib
import random
import re
import subprocess
import sys
import tempfile

from edges import EDGES
from reader import HEADINGS, LISTS, OPERATIONS, OTHER_LINES, WIDTHS, read

ROOT = pathlib.Path(__file__).resolve().parents[2]
VOCABULARY = sorted({*HEADINGS, *OTHER_LINES, *OPERATIONS, *(word for words in LISTS.values() for word in words)})
NUMBERS = '0 1 2 3 4 9 -1 0x1 0xFFFFFFFFFFFFFFFF 18446744073709551616 -9223372036854775809 1.5 -0.0 .5 5. 1e5 2.5E-3 0.1234567890123456 0x'.split()
ODD = '- -- . # a# 1# 2a a+b _ real-1 \x1b[31m é Real move Cell @ @a @7 @-1 @0x2 @@a a@ @a# @halt @Real'.split()


def parse(out):
    """What the program said: its tables, the line that it refused, or 0 where it read no file."""
    refused = re.match(rb'line (\d+): ', out)
    if refused:
        return int(refused[1])
    lines = out.decode('latin-1').split('\n')
    if lines[:1] != ['regions']:
        return 0
    tables = {}
    for line in lines[:-1]:
        if line in WIDTHS:
            rows = tables.setdefault(line, [])
        else:
            rows += map(int, line.split(' '))
    return tables


def byte_changed(rng, data):
    data = bytearray(data)
    data[rng.randrange(len(data))] = rng.choice([rng.randrange(256), rng.choice(b' \n#@-.0123456789abcdefxABCDEF_')])
    return bytes(data)


def byte_dropped(rng, data):
    at = rng.randrange(len(data))
    return data[:at] + data[at + 1:]


def byte_added(rng, data):
    at = rng.randrange(len(data) + 1)
    return data[:at] + bytes([rng.choice(b' \n\t\r#@-.0123456789abcdefxABCDEF_\0')]) + data[at:]


def words_changed(rng, data, change):
    """The words of the text, without its comments, changed in one place."""
    lines = [line.split(b'#')[0] for line in data.split(b'\n')]
    pieces = re.split(rb'([^ \t\r\n]+)', b'\n'.join(lines))
    if len(pieces) < 3:
        return data
    change(pieces, rng.randrange(1, len(pieces), 2))
    return b''.join(pieces)


def word_replaced(rng, data):
    def change(pieces, at):
        pieces[at] = rng.choice([rng.choice(VOCABULARY), rng.choice(NUMBERS), rng.choice(ODD)]).encode()
    return words_changed(rng, data, change)


def word_from_file(rng, data):
    def change(pieces, at):
        pieces[at] = pieces[rng.randrange(1, len(pieces), 2)]
    return words_changed(rng, data, change)


def words_swapped(rng, data):
    def change(pieces, at):
        other = rng.randrange(1, len(pieces), 2)
        pieces[at], pieces[other] = pieces[other], pieces[at]
    return words_changed(rng, data, change)


def word_dropped(rng, data):
    def change(pieces, at):
        pieces[at] = b''
    return words_changed(rng, data, change)


def word_doubled(rng, data):
    def change(pieces, at):
        pieces[at] += b' ' + pieces[at]
    return words_changed(rng, data, change)


def letters_changed(rng, data):
    def change(pieces, at):
        pieces[at] = rng.choice([pieces[at].swapcase(), pieces[at].lower(), pieces[at].capitalize()])
    return words_changed(rng, data, change)


def label_sign_changed(rng, data):
    """A word gains or loses the @ before it."""
    def change(pieces, at):
        signed = [i for i in range(1, len(pieces), 2) if pieces[i].startswith(b'@')]
        if signed and rng.random() < 0.5:
            at = rng.choice(signed)
        pieces[at] = pieces[at][1:] if pieces[at].startswith(b'@') else b'@' + pieces[at]
    return words_changed(rng, data, change)


def lines_changed(rng, data, change):
    lines = data.split(b'\n')
    change(lines, rng.randrange(len(lines)))
    return b'\n'.join(lines)


def line_dropped(rng, data):
    return lines_changed(rng, data, lambda lines, at: lines.pop(at))


def line_doubled(rng, data):
    return lines_changed(rng, data, lambda lines, at: lines.insert(at, lines[at]))


def lines_joined(rng, data):
    def change(lines, at):
        lines[at:at + 2] = [b' '.join(lines[at:at + 2])]
    return lines_changed(rng, data, change)


def line_moved(rng, data):
    def change(lines, at):
        lines.insert(rng.randrange(len(lines)), lines.pop(at))
    return lines_changed(rng, data, change)


DAMAGE = [byte_changed, byte_dropped, byte_added, word_replaced, word_replaced, word_from_file, words_swapped,
          word_dropped, word_doubled, letters_changed, label_sign_changed, line_dropped, line_doubled, lines_joined, line_moved]


def damaged(rng, data):
    """One damage, now and then two."""
    for _ in range(rng.choice([1, 1, 1, 2])):
        if data:
            data = rng.choice(DAMAGE)(rng, data)
    return data


def cases(options):
    """Each file's name and bytes: the edges, then every file and its damaged copies."""
    for i, data in enumerate(EDGES):
        yield f'edge {i}', data
    files = [*sorted((ROOT / 'examples').glob('*.tables')),
             ROOT / 'crates/stepper/data/exercise.tables', ROOT / 'crates/stepper/data/counts.tables']
    for file in files:
        rng = random.Random(f'{options.seed} {file.name}')
        whole = file.read_bytes()
        yield file.name, whole
        for _ in range(options.runs):
            yield file.name, damaged(rng, whole)


def main():
    options = argparse.ArgumentParser(description=__doc__, formatter_class=argparse.RawDescriptionHelpFormatter)
    options.add_argument('--seed', type=int, default=1)
    options.add_argument('--runs', type=int, default=200)
    options.add_argument('--show', type=int, default=5, help='differences that are printed')
    options.add_argument('--program', default=str(ROOT / 'crates/stepper/out/stepper'))
    options = options.parse_args()
    counts = dict(files=0, refused=0, equal=0, differ=0)
    with tempfile.TemporaryDirectory() as folder:
        path = pathlib.Path(folder) / 'damaged.tables'
        for name, data in cases(options):
            path.write_bytes(data)
            run = subprocess.run([options.program, 'tables', str(path)], stdout=subprocess.PIPE)
            said, told = parse(run.stdout), read(data)
            same = said == told and run.returncode == 0
            counts['files'] += 1
            counts['differ' if not same else 'refused' if isinstance(said, int) else 'equal'] += 1
            if not same and counts['differ'] <= options.show:
                print(f'--- {name}: program {said}, reader.py {told}\n{data.decode("latin-1")}')
    print(f'seed {options.seed}: ' + ', '.join(f'{n} {what}' for what, n in counts.items()))
    return 0 if counts['differ'] == 0 and counts['equal'] > 0 else 1


if __name__ == '__main__':
    sys.exit(main())
