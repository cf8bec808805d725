#!/usr/bin/env python3
"""Writes the script that cases_calls plays, `stdin`, and what it must write, `stdout`, beside itself.

The answers come from `rules/`, written from documents 01 and 02, docs/DECISIONS.md, the C header and, for the kept calls, quil-rs's
source, without a look at the proved definitions or at the code of their rules. Seen of the code: the types of the
answers, the position and the type error, the first lines of the looks that open, forward and back share, cases with
their answers, journal_length's rule, a sentence of 02's, and CONVERT's two conversions with their definitions, which are Python's own here.
For `quil-rs.answers` the answers are the list's, and the rules must give the same.
The cases are in `cases/`. The same output at each run.
"""
import sys
from pathlib import Path

sys.dont_write_bytecode = True
HERE = Path(__file__).resolve().parent
# The bytes that the program reads.
TEXT = 1048576
sys.path.insert(0, str(HERE))

from cases import accepted, backs, calls, converts, frames, jumps, labels, lengths, lines, lists, literals, loads, opens, orders, quil_rs, references, refused, resolutions, runs, verdicts, walks, worked  # noqa: E402
from cases.script import Script  # noqa: E402


def main():
    script = Script()
    script.heading('a call and its number | what it answers | memory words changed | journal words changed')
    for group in (lines, worked, accepted, refused, calls, orders, opens, lengths, backs, labels, jumps, runs, converts, literals, lists, loads, verdicts, frames, resolutions, walks, references, quil_rs):
        group.write(script)
    played = '\n'.join(script.lines) + '\n'
    assert len(played) <= TEXT, 'the program reads no more than this'
    (HERE / 'stdin').write_text(played)
    (HERE / 'stdout').write_text('\n'.join(script.answers) + '\n')


if __name__ == '__main__':
    main()
