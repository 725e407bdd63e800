"""Compares the scaled values of the port's program `replay` with those of cfitsio and astropy, on random tables of
numbers with TSCALn and TZEROn. See README.md.

    scaled.py WORK TABLES

WORK is a folder for files. Values are compared as numbers: a whole number with another one, and with a double if it is
the nearest; NaNs are alike. It passes with status 0 if nothing differs but what docs/DIFFERENCES.md explains, and if
each wrong answer is noticed.
"""
import collections
import math
import os
import random
import re
import struct
import subprocess
import sys
from fractions import Fraction

sys.dont_write_bytecode = True
HERE = os.path.dirname(os.path.abspath(__file__))
ROOT = os.path.dirname(HERE)
sys.path.insert(0, os.path.join(ROOT, 'tests'))

import compare
import generate
from header_cases import keyword
from layout_cases import NUMBERS, WIDTH, layout_of, real_value
from listing import MOST, MOST_CELLS, column_records, fixed, parted, required, whole
from table_cases import SHIFTS, row_entries, stored_double

SEED = 1
WRONG_TABLES = 200
READERS = {'cfitsio': [os.path.join(compare.BUILT, 'cfitsio_scaled')],
           'astropy': [compare.PYTHON, os.path.join(HERE, 'astropy_scaled.py')]}
REPLAY = os.path.join(ROOT, 'crates', 'replay', 'out', 'replay')

# ---- the tables ----

FACTORS = ['1', '1.0', '2', '-1', '0.5', '0.1', '0.3D0', '-1.7E-5', '3', '1E22', '1E-22', '123456789.012345', '0.001']
ZEROS = ['0', '-0.5', '0.1', '1', '32768', '-32768', '-128', '128', '2147483648', '9223372036854775808',
         '-9223372036854775808', '1E10', '-2.5D-3', '999999999999999']


def item(rng, letter):
    """The bytes of a number: any, a special one, a small one, or a decimal."""
    width = WIDTH[letter]
    kind = rng.randrange(4)
    if kind == 0:
        return rng.randbytes(width)
    if kind == 1:
        return bytes.fromhex(rng.choice([of for of in generate.SPECIAL if len(of) == 2 * width]))
    if letter in 'ED':
        of = rng.choice([round(rng.uniform(-1e6, 1e6), rng.randrange(4)), float(rng.randrange(-99, 99)), rng.random()])
        return struct.pack('>f' if letter == 'E' else '>d', of)
    near = 2 ** min(8 * width - 2, rng.choice([4, 7, 12, 53, 54, 62]))
    return ((rng.randrange(-near, near) if letter != 'B' else rng.randrange(256)) % 256 ** width).to_bytes(width, 'big')


class Heap(generate.Heap):
    def items(self, letter, count):
        return b''.join(item(self.rng, letter) for _ in range(count))


def scaling_of(rng, n, letter):
    """The records of a column: none, one or both; the zeros of whole numbers often."""
    shift = ['%d' % SHIFTS[letter][0]] * 12 if letter in SHIFTS else []
    factor = rng.choice([rng.choice(FACTORS), '1', real_value(rng)])
    zero = rng.choice([rng.choice(ZEROS + shift), rng.choice(ZEROS + shift), real_value(rng)])
    made = [keyword('TSCAL%d' % n, factor), keyword('TZERO%d' % n, zero)]
    return rng.choice([made, made, made[::-1], made[:1], made[1:], made[1:], []])


def try_table(rng):
    columns, rows, longest = rng.choice([(4, 8, 6), (8, 5, 4), (3, 60, 2), (12, 3, 3), (2, 6, 60)])
    letters = [(rng.choice(['', '', '', 'P', 'Q']), rng.choice(NUMBERS)) for _ in range(1 + rng.randrange(columns))]
    counts = [1 if array else rng.choice([1, 1, 2, 1 + rng.randrange(longest)]) for array, _ in letters]
    rows, heap = rng.choice([1, 1 + rng.randrange(rows), rows]), Heap(rng)
    fields = []
    for _ in range(rows):
        for (array, letter), count in zip(letters, counts):
            if array:
                fields.append(struct.pack('>II' if array == 'P' else '>QQ', *heap.add(letter, longest)))
            else:
                fields.append(heap.items(letter, count))
    main = b''.join(fields)
    forms = ['%d%s%s' % (count, array, letter) for (array, letter), count in zip(letters, counts)]
    made = required(len(main) // rows, rows, len(heap.content), len(forms))
    made += column_records(forms, ['C%d' % n for n in range(len(forms))])
    for n, (_, letter) in enumerate(letters, 1):
        made += scaling_of(rng, n, letter)
    return whole(made, main + heap.content)


def tables(seed, count):
    rng, made = random.Random('scaled %s' % seed), []
    while len(made) < count:
        one = try_table(rng)
        if len(one) <= MOST:
            made.append(one)
    return made


# ---- what is read ----


def double_of(bits):
    return struct.unpack('>d', bytes.fromhex(bits))[0]


def layout_in(table):
    header, area = parted(table)
    return layout_of(header, len(area))


def without_nulls(table):
    """The layout of a table as if no column had a null."""
    layout = layout_in(table)
    return layout._replace(columns=[column._replace(null=None) for column in layout.columns])


def is_whole(column):
    return column.scaling is not None and column.scaling == (1, SHIFTS.get(column.form[-1], (None,))[0])


def port_lines(table, work, rows):
    """What `replay` prints of so many rows, read scaled one after the other."""
    with open(os.path.join(work, 'table.fits'), 'wb') as to:
        to.write(table)
    with open(os.path.join(work, 'steps.txt'), 'w', encoding='ascii') as to:
        to.write('row %d scaled\n' % MOST_CELLS * rows)
    return subprocess.run([REPLAY], cwd=work, capture_output=True, check=True).stdout.decode('ascii').splitlines()


def port_cells(table, work):
    """The cells of numbers that `replay` reads, each with its value: a whole number, a double, or U."""
    layout = layout_in(table)
    columns, said, made = layout.columns, port_lines(table, work, layout.rows), {}
    assert not any(line.startswith(('refused', 'bad', 'end')) for line in said), said[:3]
    for line in said:
        word, *words = line.split()
        if word == 'cell' and columns[int(words[1])].form[-1] in NUMBERS:
            place, value, whole_ones = tuple(int(of) for of in words[:3]), words[3], is_whole(columns[int(words[1])])
            made[place] = value if value == 'U' else int(value) if whole_ones else double_of(value)
    return made


def read_value(of):
    return of if of == 'U' else double_of(of[1:]) if of[0] == 'f' else int(of)


def read_by(reader, files, work, *words):
    """The lines that a reader prints of each file."""
    paths = [os.path.join(work, 'scaled%d.fits' % k) for k in range(len(files))]
    for path, content in zip(paths, files):
        with open(path, 'wb') as to:
            to.write(content)
    listed = ''.join(path + '\n' for path in paths).encode()
    said = subprocess.run(READERS[reader] + list(words), input=listed, stdout=subprocess.PIPE, check=True).stdout
    parts = re.split('^file .*\n', said.decode('latin-1'), flags=re.MULTILINE)[1:]
    assert len(parts) == len(files)
    return [part.splitlines() for part in parts]


def reader_cells(reader, given, work, *words):
    """The cells that a reader reads of each table: a list of values for each, one or two; or the line of an error."""
    made = []
    for lines in read_by(reader, [compare.whole_file(table) for table in given], work, *words):
        made.append({})
        for line in lines:
            word, *values = line.split(' ')
            if word == 'cell':
                made[-1][tuple(int(of) for of in values[:3])] = [read_value(of) for of in values[3:]]
            else:
                made[-1]['error'] = line
    return made


# ---- comparing ----


def same(ours, theirs):
    """Whether two values are the same number, a whole number as a double where the other is one; NaNs are alike, and
    zeros are if their signs are."""
    if 'U' in (ours, theirs):
        return ours == theirs
    if isinstance(ours, int) and isinstance(theirs, int):
        return ours == theirs
    ours, theirs = float(ours), float(theirs)
    return ours != ours and theirs != theirs or ours == theirs and math.copysign(1, ours) == math.copysign(1, theirs)


def explanation(reader, card, scaling, ours, theirs):
    """The difference that docs/DIFFERENCES.md explains, or None; `card` is the record of TZEROn, if there is one."""
    factor, zero = scaling or (1, 0)
    if (ours, theirs, zero) != (0, 0, 0) or math.copysign(1, theirs) > 0:
        return None
    if reader == 'astropy':
        return 'astropy: -0.0 where the zero is 0, which it does not add'
    if factor == 1:
        return 'cfitsio: -0.0 where the factor is 1 and the zero 0, which is as stored'
    if b'-' in card.partition(b'/')[0]:
        return 'cfitsio: -0.0 where the zero is written as -0'
    return None


def card_of(table, name):
    header = parted(table)[0]
    cards = [header[at:at + 80] for at in range(0, len(header), 80)]
    return next((card for card in cards if card.startswith(name.ljust(8))), b'')


def is_left_out(reader, column):
    """Whether the reader's cells are left out: arrays that astropy would scale."""
    return reader == 'astropy' and column.form[0] in 'PQ' and column.scaling not in (None, (1, 0))


class Found:
    """What was met: the cells compared, the tables that differ, explained differences by their names."""

    def __init__(self):
        self.cells, self.tables, self.first, self.met = 0, 0, None, collections.Counter()

    def explain(self, reader, table, place, ours, theirs):
        column = layout_in(table).columns[place[1]]
        return explanation(reader, card_of(table, b'TZERO%d' % (place[1] + 1)), column.scaling, ours, theirs)

    def add(self, reader, table, ours, theirs):
        """Whether the table differs."""
        columns = layout_in(table).columns
        wanted = {place: value for place, value in ours.items() if not is_left_out(reader, columns[place[1]])}
        if wanted.keys() != theirs.keys():
            different = theirs.get('error', 'other cells')
        else:
            different = None
            self.cells += len(wanted)
            self.met['%s: cells of arrays left out' % reader] += len(ours) - len(wanted)
            for place, value in wanted.items():
                others = [other for other in theirs[place] if not same(value, other)]
                whys = {self.explain(reader, table, place, value, other) for other in others}
                self.met.update(whys - {None})
                different = different or ((place, value, others) if None in whys else None)
        self.tables += different is not None
        self.first = self.first or different
        return different is not None


# ---- wrong answers ----


def with_records(table, change):
    """The table with its records changed."""
    header, area = parted(table)
    return b''.join(change(header[at:at + 80]) for at in range(0, len(header), 80)) + area


def exchanged(card):
    for one, other in ((b'TSCAL', b'TZERO'), (b'TZERO', b'TSCAL')):
        if card.startswith(one):
            return other + card[5:]
    return card


def without(name):
    return lambda card: b'COMMENT ' + card[8:] if card.startswith(name) else card


# what is done to a copy for the other readers
FAULTS = {'factor and zero exchanged': exchanged, 'no factor': without(b'TSCAL'), 'no zero': without(b'TZERO')}


def fused(factor, zero, stored):
    """The product and the sum rounded once."""
    if not all(math.isfinite(of) for of in (factor, zero, stored)):
        return zero + factor * stored
    exact = Fraction(zero) + Fraction(factor) * Fraction(stored)
    return float(exact) if abs(exact) < 2 ** 1023 else zero + factor * stored


def single(of):
    """A double rounded to a single float, if it has one."""
    return struct.unpack('>f', struct.pack('>f', of))[0] if abs(of) < 2.0 ** 127 else of


# the scaled value of a factor, a zero and a stored double, wrongly
RULES = {
    'the sum before the product': lambda factor, zero, stored: factor * (zero + stored),
    'product and sum rounded once': fused,
    'the stored number as a single float': lambda factor, zero, stored: zero + factor * single(stored),
    'the answer as a single float': lambda factor, zero, stored: single(zero + factor * stored),
    'the zero times the factor too': lambda factor, zero, stored: factor * zero + factor * stored,
}


def cells_by(rule, table):
    """The cells of a table by such a rule; whole numbers are right."""
    area, layout, made = parted(table)[1], without_nulls(table), {}
    for row in range(layout.rows):
        for cell in row_entries(layout, area, range(len(layout.columns)), True, row):
            column = layout.columns[cell.column]
            value = cell.value[0] + SHIFTS[cell.kind][0] if is_whole(column) else rule(
                *(column.scaling or (1.0, 0.0)), stored_double(cell.kind, *cell.value))
            made[cell.row, cell.column, cell.idx] = value
    return made


def is_other(reader, table, one, other):
    """Whether some value that is compared with the reader is another."""
    columns = layout_in(table).columns
    return any(not same(value, other[place]) for place, value in one.items()
               if not is_left_out(reader, columns[place[1]]) and (value, other[place]) != (0, 0))


def told(title, reader, made, noticed):
    print('control, %s: %d tables, noticed by %s on %d' % (title, made, reader, noticed))
    return made - noticed + (made == 0)


def missed(reader, given, ours, work):
    """How many wrong tables and wrong answers the comparison does not notice."""
    count = 0
    for title, change in FAULTS.items():
        wrong = [with_records(table, change) for table in given]
        # a column with other records may be one of arrays that is left out, so the port tells which values change
        pairs = [(of, k) for k, of in enumerate(wrong) if of != given[k]
                 and is_other(reader, given[k], ours[k], port_cells(of, work))
                 and is_other(reader, of, ours[k], port_cells(of, work))]
        read = reader_cells(reader, [of for of, _ in pairs], work)
        noticed = sum(Found().add(reader, of, ours[k], theirs) for (of, k), theirs in zip(pairs, read))
        count += told(title, reader, len(pairs), noticed)
    read = reader_cells(reader, given, work)
    for title, rule in RULES.items():
        wrong = [cells_by(rule, table) for table in given]
        places = [k for k, table in enumerate(given) if is_other(reader, table, ours[k], wrong[k])]
        noticed = sum(Found().add(reader, given[k], wrong[k], read[k]) for k in places)
        count += told(title, reader, len(places), noticed)
    return count


def main(work, count):
    given, failed = tables(SEED, int(count)), 0
    ours = [port_cells(table, work) for table in given]
    columns = [column for table in given for column in layout_in(table).columns]
    print('scaled tables: %d tables, %d columns, %d of them with keywords and %d of whole numbers, %d cells' % (
        len(given), len(columns), sum(of.scaling is not None for of in columns), sum(map(is_whole, columns)),
        sum(map(len, ours))))
    for reader in READERS:
        found = Found()
        for table, one, theirs in zip(given, ours, reader_cells(reader, given, work)):
            found.add(reader, table, one, theirs)
        print('  %s: %d cells compared, %d tables differ' % (reader, found.cells, found.tables))
        if found.first:
            print('  %s: %r' % (reader, found.first))
        for why, number in sorted(found.met.items()):
            if number:
                print('  %s: %d' % (why, number))
        failed += found.tables + missed(reader, given[:WRONG_TABLES], ours, work)
    return failed


if __name__ == '__main__':
    sys.exit(1 if main(*sys.argv[1:]) else 0)
