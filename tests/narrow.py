#!/usr/bin/env python3
"""Holds what `cells` and `replay` print of a table to what they print of it in another way. No text is expected here.

From the repository's root:

    tests/narrow.py check CELLS REPLAY [--seeds A B]
        runs the two built programs, crates/cells/out/cells and crates/replay/out/replay, on a random table for each
        number from A to B (0 to 999 if not given)

A choice beside all columns: of each table that is accepted a few columns are chosen, and `replay` reads it by these
and by all columns, cell by cell until the end or a 13, and each row from its start. What the reads of all columns hand
out, less the lines of the other columns, is what the reads of the choice must hand out (docs/FORMAT.md, section 13).

A header that becomes another one: the records before END that hold no used name become others of that sort, and so do
the bytes behind END (section 4). `cells` and `replay` must print the same, refusals too.

`check` prints how many tables were compared and `0 differ`; or the first one that differs, and ends with status 1. It
also holds the same runs to wrong rules, each of which must be noticed, or it ends with status 1 too.
"""
import os
import random
import re
import subprocess
import sys
import tempfile

sys.dont_write_bytecode = True

from header_cases import RECORD, USED, TNULL, TSCAL, TZERO
from header_cases import end_of, header_length, name_of, record, records_of
from layout_cases import Refused, layout_of
from listing import MOST, random_file
from table_cases import random_case

USED_NAMES = set(USED + TSCAL + TZERO + TNULL)
ROWS = 6

# ---- the programs ----


def printed(program, folder, file, steps=None):
    """What a program prints of a table, and of steps."""
    for name, content in (('table.fits', file), ('steps.txt', steps)):
        if content is not None:
            with open(os.path.join(folder, name), 'wb') as made:
                made.write(content)
    done = subprocess.run([program], cwd=folder, stdin=subprocess.DEVNULL, capture_output=True, timeout=120)
    return done.stdout


def answers(said):
    """The lines of each step: those before the line that says where the cursor is."""
    made, lines = [], []
    for line in said.decode('latin-1').splitlines():
        if line.startswith('at '):
            made.append(lines)
            lines = []
        else:
            lines.append(line)
    return made


def column_of(line):
    return int(line.split()[2])


# ---- a choice beside all columns ----


def handed(steps):
    """The cell lines of the first cell reads, and the line that ended them."""
    lines = []
    for step in steps:
        if not step[0].startswith('cell '):
            return lines, step[0]
        lines.append(step[0])
    return lines, None


def keeps(chosen):
    return lambda line: column_of(line) in chosen


def reads_differ(full, narrow, chosen, keep=keeps):
    """Whether cell reads of a choice do not answer as those of all columns say; None where this was not told."""
    (cells, stop), (own, own_stop) = handed(full), handed(narrow)
    if stop is None:
        return None
    struck = list(filter(keep(chosen), cells))
    if stop == 'end' or int(stop.split()[2]) in chosen:
        return own != struck or own_stop != stop
    behind = own[len(struck):]
    places = [tuple(map(int, line.split()[1:4])) for line in own]
    others = any(column_of(line) not in chosen for line in behind)
    return own[:len(struck)] != struck or places != sorted(places) or others


def row_differs(full, narrow, chosen, keep=keeps):
    """The same of a row read from the row's start."""
    if full[0].startswith('row '):
        struck = list(filter(keep(chosen), full[1:]))
        return narrow != ['row %d' % len(struck)] + struck
    if full[0].startswith('refused 13 ') and column_of(full[0]) in chosen:
        return narrow != full
    return None


def choice_runs(replay, folder, file, layout, rng):
    """The answers of both cursors, to cell reads and to row reads, and the columns chosen."""
    columns = len(layout.columns)
    chosen = sorted(rng.sample(range(columns), rng.randrange(1, columns)))
    heap = b'heap off\n' * (rng.randrange(4) == 0)
    scaled = b' scaled' * rng.randrange(2)
    reads = (b'cell' + scaled + b'\n') * rng.choice([300, 2000])
    rows = b''.join(b'seek %d\nrow 512%s\n' % (r, scaled) for r in range(min(ROWS, layout.rows)))
    named = chosen + rng.sample(chosen, 1) + [columns + rng.randrange(9)]
    rng.shuffle(named)
    runs = []
    for choose in (b'choose all\n', b'choose %s\n' % b' '.join(b'%d' % c for c in named)):
        runs.append([answers(printed(replay, folder, file, choose + heap + steps)) for steps in (reads, rows)])
    return chosen, runs


def compared(runs, keep=keeps):
    """How many reads were told of, and whether one differs."""
    chosen, ((full, rows), (narrow, own_rows)) = runs
    told = [reads_differ(full, narrow, chosen, keep)] if full else []
    told += [row_differs(a, b, chosen, keep) for a, b in zip(rows[1::2], own_rows[1::2])]
    told = [one for one in told if one is not None]
    return len(told), any(told)


def stops_early(runs):
    """Whether cell reads of all columns stop at a 13 of a column that is not chosen."""
    chosen, ((full, rows), narrow) = runs
    stop = handed(full)[1]
    return bool(stop) and stop.startswith('refused 13 ') and column_of(stop) not in chosen


# ---- a header that becomes another one ----


OTHERS = ['', 'COMMENT coater 3', 'HISTORY', "TUNIT1  = 'mm'", "TDISP2  = 'I8'", "TFORM1   '9Z'", 'NAXIS1  =6',
          'TNULL01 = 0', 'TNULL0  = 0', "TFORM1000= '1I'", 'tnull1  = 0', 'END     = 1', 'ENDS', 'END /',
          "EXTNAME = 'TFORM1'", "TTYPE1A = 'x'", 'TSCAL   = 2', 'TZERO00 = 1', "  TFORM1= '9Z'", '= 8']


def is_used(card):
    return card[8:10] == b'= ' and name_of(card) in USED_NAMES


def other_record(rng):
    if rng.randrange(3) == 0:
        card = bytes(rng.randrange(256) for _ in range(RECORD))
    else:
        card = record(rng.choice(OTHERS))
    return card if not is_used(card) and card.rstrip(b' ') != b'END' else record('')


def becomes(rng, header, may=lambda card: not is_used(card)):
    """The header with its unused records and what follows END changed."""
    cards = records_of(header)
    end = end_of(header)
    last = len(cards) if end is None else end
    made = [other_record(rng) if may(card) else card for card in cards[:last]]
    rest = header[last * RECORD:]
    if end is not None:
        rest = rest[:RECORD] + bytes(rng.choice([32, 65, rng.randrange(256)]) for _ in range(len(rest) - RECORD))
    return b''.join(made) + rest


def header_runs(programs, folder, file, header, other):
    """What both programs print of the two tables."""
    steps = b'cell\n' * 40 + b'seek 1\nrow 512 scaled\n' + b'cell scaled\n' * 40
    texts = []
    for one in (header, other):
        table = one + file[len(header):]
        texts.append((printed(programs[0], folder, table), printed(programs[1], folder, table, steps)))
    return texts


# ---- wrong rules, which must be noticed ----


def with_neighbour(chosen):
    return lambda line: column_of(line) in chosen or column_of(line) + 1 in chosen


def last_alone(chosen):
    return lambda line: column_of(line) == chosen[-1]


def forgets(*names):
    """A relation in which the records of these names are unused."""
    return lambda card: not is_used(card) or name_of(card).startswith(names)


RULES = {'a neighbour stays': with_neighbour, 'one column stays': last_alone}
RELATIONS = {'TNULL is unused': (b'TNULL',), 'TSCAL and TZERO are unused': (b'TSCAL', b'TZERO'),
             'TTYPE is unused': (b'TTYPE',)}


def one_table(seed, programs, folder, tally, noticed):
    rng = random.Random(seed)
    file = random_file(rng, random_case(rng))[:MOST]
    header = file[:header_length(file)]
    other = becomes(rng, header)
    texts = header_runs(programs, folder, file, header, other)
    tally['headers'] += other != header
    tally['refused'] += texts[0][0].startswith(b'refused')
    if texts[0] != texts[1]:
        return 'header'
    for rule, names in RELATIONS.items():
        held = any(is_used(card) and name_of(card).startswith(names) for card in records_of(header))
        if held and rule not in noticed:
            changed = header_runs(programs, folder, file, header, becomes(rng, header, forgets(*names)))
            if changed[0] != changed[1]:
                noticed.add(rule)
    try:
        layout = layout_of(header, len(file) - len(header))
    except Refused:
        return None
    if len(layout.columns) < 2:
        return None
    runs = choice_runs(programs[1], folder, file, layout, rng)
    told, wrong = compared(runs)
    tally['reads'] += told
    tally['tables'] += told > 0
    tally['behind'] += stops_early(runs)
    for rule, keep in RULES.items():
        if compared(runs, keep)[1]:
            noticed.add(rule)
    return 'choice' if wrong else None


def check(programs, seeds):
    programs = [os.path.abspath(program) for program in programs]
    tally = dict.fromkeys(['headers', 'refused', 'tables', 'reads', 'behind'], 0)
    noticed = set()
    with tempfile.TemporaryDirectory() as folder:
        for seed in range(seeds[0], seeds[1] + 1):
            wrong = one_table(seed, programs, folder, tally, noticed)
            if wrong:
                print('seed %d differs: its %s' % (seed, wrong))
                return 1
    print('%(headers)d headers that became others, %(refused)d of them refused, 0 differ' % tally)
    print('%(reads)d reads of a choice in %(tables)d tables beside all columns, 0 differ; in %(behind)d tables they '
          'go on behind a 13 of another column' % tally)
    missed = (set(RULES) | set(RELATIONS)) - noticed
    for rule in sorted(missed):
        print('not noticed: %s' % rule)
    print('%d wrong rules, %d not noticed' % (len(RULES) + len(RELATIONS), len(missed)))
    return 1 if missed else 0


def main(words):
    if len(words) in (3, 6) and words[0] == 'check' and words[3:4] in ([], ['--seeds']):
        if all(re.fullmatch('[0-9]+', word) for word in words[4:]):
            return check(words[1:3], [int(word) for word in words[4:]] or [0, 999])
    print(__doc__, file=sys.stderr)
    return 2


if __name__ == '__main__':
    sys.exit(main(sys.argv[1:]))
