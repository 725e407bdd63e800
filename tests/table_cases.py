#!/usr/bin/env python3
"""Writes the cases of the program `table_cases` and what it must print of them.

From the repository's root:

    python3 tests/table_cases.py               crates/table_cases/data/cases.bin and crates/table_cases/stdout
    python3 tests/table_cases.py SEED FOLDER   FOLDER/data/cases.bin and FOLDER/stdout: random cases alone

The counts of cases and answers go to standard error. `named()[57].why` tells what case 57 of the first run is for.

The reader below is not a copy of the code it tests: it was written from the request's statement of the plain list
and the plain walk. A row's list is made whole, one entry after the other, and a step picks from it. The header and
the layout are read by layout_cases.py, which is such a reader too.

A case is a header, a data area, a second area (often empty), a choice of columns, a heap setting, and steps. The entry
gets the header and the first area. The opening and each step say which of the areas they are lent, and how many bytes
of it at most. A step may also give the cursor any place and count, or any columns. A row read says how long its list
is; the list is full of one cell that no table has, and is shown after the step. A read is plain or scaled. A read or
seek is done by value or over a lent cursor: which of the two is left to chance, and the reader below knows no
difference.
"""
import collections
import os
import random
import struct
import sys

sys.dont_write_bytecode = True

from header_cases import BLOCK, LIMIT, RECORD, ended, keyword, text
from layout_cases import DESCRIPTOR, INTEGERS, NUMBERS, WIDTH, Refused, double_bits, form_of, layout_of, table

MOST_HEADER = 3 * BLOCK
MOST_INDEXES = 128
KEPT = 32
LARGEST_COUNT = 4294967295
MOST_CELLS = 512

# the cases by name stay below this, so that the repository stays small; the program reads any length
MOST_NAMED = 163840

# ---- the plain list ----

Cell = collections.namedtuple('Cell', 'row column idx kind value')
Bad = collections.namedtuple('Bad', 'column')

# what a list is full of before a row read
UNTOUCHED = Cell(999, 99, 9, 'X', [165])


def number(of):
    return int.from_bytes(of, 'big')


def item_width(letter):
    return 1 if letter == 'X' else WIDTH[letter]


def item_count(letter, count):
    return (count + 7) // 8 if letter == 'X' else count


def value_of(letter, of):
    """The numbers of one item; those of a float are its bits."""
    assert len(of) == item_width(letter)
    if letter == 'L':
        known = {84: [1], 70: [0], 0: [2]}
        return known.get(of[0], [3, of[0]])
    if letter in 'CM':
        half = len(of) // 2
        return [number(of[:half]), number(of[half:])]
    if letter in 'IJK':
        return [int.from_bytes(of, 'big', signed=True)]
    return [number(of)]


def run_of(area, letter, start, items):
    """The values of so many items that begin at a byte of the area."""
    width = item_width(letter)
    return [value_of(letter, area[start + i * width:start + (i + 1) * width]) for i in range(items)]


def cells_of(layout, row, c, letter, values):
    """The cells of a field or an array. One whose stored number is the column's null is unset: U, with no number."""
    null = layout.columns[c].null
    unset = [letter in INTEGERS and value == [null] for value in values]
    return [Cell(row, c, i, 'U', []) if unset[i] else Cell(row, c, i, letter, value) for i, value in enumerate(values)]


def field_entries(layout, area, heap, row, c):
    """The entries of one field."""
    column = layout.columns[c]
    letter = column.form[0]
    start = row * layout.naxis1 + column.start
    if letter not in DESCRIPTOR:
        return cells_of(layout, row, c, letter, run_of(area, letter, start, item_count(letter, column.count)))
    if column.count == 0:
        # no descriptor: an empty field, whether the heap is on or off
        return []
    half = DESCRIPTOR[letter] // 2
    count, offset = number(area[start:start + half]), number(area[start + half:start + 2 * half])
    if not heap:
        return [Cell(row, c, 0, letter, [count, offset])]
    if count == 0:
        return []
    element = column.form[1]
    items = item_count(element, count)
    first = layout.theap + offset
    if first + items * item_width(element) > layout.naxis1 * layout.rows + layout.pcount:
        return [Bad(c)]
    return cells_of(layout, row, c, element, run_of(area, element, first, items))


def row_entries(layout, area, choice, heap, row):
    """The plain list of a row."""
    made = []
    for c in choice:
        made += field_entries(layout, area, heap, row, c)
    return made


# ---- the scaled values ----

# with the factor 1 and such a zero the answer is the exact whole number; U is an unsigned one of 64 bits
SHIFTS = {'B': (-128, 'K'), 'I': (2 ** 15, 'U'), 'J': (2 ** 31, 'U'), 'K': (2 ** 63, 'U')}
NAN = 0x7FF8 << 48


def stored_double(letter, value):
    """The stored number as the nearest double. Python rounds a whole number so, halves to even."""
    if letter in 'ED':
        return struct.unpack('>f', be(4, value))[0] if letter == 'E' else struct.unpack('>d', be(8, value))[0]
    return float(value)


def scaled_value(letter, value, scaling):
    """The letter and the number of a scaled value; that of a double is its bits. Python's product is rounded, and then
    its sum."""
    factor, zero = scaling or (1.0, 0.0)
    shift, whole = SHIFTS.get(letter, (None, None))
    if (factor, zero) == (1, shift):
        return whole, value + shift
    made = zero + factor * stored_double(letter, value)
    return 'D', NAN if made != made else double_bits(made)


def scaled(layout, cell):
    """The cell as the scaled reading has it. Its letter is that of the item, P or Q where no array is followed, and U
    where it is unset."""
    if cell.kind not in NUMBERS:
        return cell
    kind, value = scaled_value(cell.kind, *cell.value, layout.columns[cell.column].scaling)
    return cell._replace(kind=kind, value=[value])


# ---- the plain walk ----


def long_enough(layout, area):
    return len(area) >= layout.naxis1 * layout.rows + layout.pcount


def choice_of(layout, indexes):
    """The columns chosen; None stands for all of them."""
    if indexes is None:
        return list(range(len(layout.columns)))
    return sorted({c for c in indexes if c < len(layout.columns)})


class Walk:
    """A place and a count, over a layout, a choice and a heap setting. Each step is lent an area."""

    def __init__(self, layout, area, indexes, heap):
        self.layout, self.heap = layout, heap
        self.choice = choice_of(layout, indexes)
        self.row = self.passed = self.count = 0
        if not long_enough(layout, area):
            raise Refused(10, 0)
        if not self.choice:
            raise Refused(11, 0)

    def entries(self, area, row):
        return row_entries(self.layout, area, self.choice, self.heap, row)

    def belongs(self, area):
        if not long_enough(self.layout, area) or self.row > self.layout.rows:
            return False
        if not self.choice or self.choice[-1] >= len(self.layout.columns):
            return False
        if self.row == self.layout.rows:
            return self.passed == 0
        return self.passed == 0 or self.passed < len(self.entries(area, self.row))

    def next(self, area):
        """A cell read: the cell, or None at the end."""
        if not self.belongs(area):
            raise Refused(10, 0)
        row, passed = self.row, self.passed
        while row < self.layout.rows:
            entries = self.entries(area, row)
            if passed == len(entries):
                row, passed = row + 1, 0
                continue
            entry = entries[passed]
            if isinstance(entry, Bad):
                raise Refused(13, entry.column)
            last = passed + 1 == len(entries)
            self.row, self.passed = (row + 1, 0) if last else (row, passed + 1)
            self.count = min(self.count + 1, LARGEST_COUNT)
            return entry
        self.row, self.passed = self.layout.rows, 0
        return None

    def seek(self, area, row):
        if not self.belongs(area):
            raise Refused(10, 0)
        if row >= self.layout.rows:
            raise Refused(12, row)
        self.row, self.passed = row, 0

    def next_row(self, area, cells):
        """A row read into a list: the number of cells, or None at the end."""
        if not self.belongs(area):
            raise Refused(10, 0)
        if self.row == self.layout.rows:
            return None
        left = self.entries(area, self.row)[self.passed:]
        for entry in left:
            if isinstance(entry, Bad):
                raise Refused(13, entry.column)
        if len(cells) < len(left):
            raise Refused(14, len(left))
        cells[:len(left)] = left
        self.row, self.passed = self.row + 1, 0
        self.count = min(self.count + len(left), LARGEST_COUNT)
        return len(left)

    def answer(self, step, area, cells):
        """What a step answers, as it is printed, and how many cells it put into its list."""
        try:
            if step.kind == SEEK:
                self.seek(area, step.row)
                return 'sought', 0
            if step.kind == ROW:
                handed = self.next_row(area, cells)
                if step.scaled and handed:
                    cells[:handed] = [scaled(self.layout, cell) for cell in cells[:handed]]
                return ('end', 0) if handed is None else ('row %d' % handed, handed)
            cell = self.next(area)
            if step.scaled and cell is not None:
                cell = scaled(self.layout, cell)
            return 'end' if cell is None else told(cell), 0
        except Refused as refusal:
            return 'refused %d %d' % refusal.args, 0

    def step(self, step, area):
        """The lines of a step: its answer, the place afterwards, and the list of a row read."""
        cells = [UNTOUCHED] * step.row if step.kind == ROW else []
        size = len(cells)
        answer, handed = self.answer(step, area, cells)
        assert len(cells) == size
        return [answer, self.place()] + listed(cells, handed)

    def place(self):
        return 'at %d %d %d' % (self.row, self.passed, self.count)


def told(cell):
    words = ['cell', cell.row, cell.column, cell.idx, cell.kind] + cell.value
    return ' '.join(str(word) for word in words)


def is_shown(k, size, handed):
    """Whether cell k of a list is printed: all of a short one; of a long one the first eight, those up to two away from
    where the row read ended, and the last two."""
    return size <= 24 or k < 8 or abs(k - handed) <= 2 or k >= size - 2


def listed(cells, handed):
    return ['list %d %s' % (k, told(cell)) for k, cell in enumerate(cells) if is_shown(k, len(cells), handed)]


def said_of(case):
    """The lines for one case, after its number."""
    try:
        layout = layout_of(case.header, len(case.area))
    except Refused as refusal:
        return ['refused %d %d' % refusal.args]
    lines = ['accepted']
    try:
        walk = Walk(layout, lent(case, case.opening), case.indexes, case.heap)
    except Refused as refusal:
        return lines + ['refused %d %d' % refusal.args]
    lines += ['opened', walk.place()]
    for step in case.steps:
        for _ in range(step.times):
            if step.kind == PUT:
                walk.row, walk.passed, walk.count = step.row, *step.lent
                lines += ['put', walk.place()]
            elif step.kind == CHOOSE:
                walk.choice = [c for c in range(64) if step.row >> c & 1]
                lines += ['put', walk.place()]
            else:
                lines += walk.step(step, lent(case, step.lent))
    return lines


def lent(case, of):
    """The area lent: which one, and its first bytes."""
    return (case.other if of.other else case.area)[:of.most]


# ---- making cases ----

Case = collections.namedtuple('Case', 'why said header area other indexes heap opening steps')
Step = collections.namedtuple('Step', 'kind row times lent over scaled', defaults=[False, False])
Place = collections.namedtuple('Place', 'passed count')
Lent = collections.namedtuple('Lent', 'other most')

FAR = 2 ** 32 - 1
WHOLE = Lent(False, FAR)
ALL64 = 2 ** 64 - 1
READ, SEEK, PUT, CHOOSE, ROW = 0, 1, 2, 3, 4


def reads(times=1, of=WHOLE):
    return [Step(READ, 0, times, of)]


def scaling(steps):
    """The same steps, the reads of the scaled reading."""
    return [step._replace(scaled=step.kind in (READ, ROW)) for step in steps]


def seek(row, of=WHOLE):
    return [Step(SEEK, row, 1, of)]


def row_reads(size, times=1, of=WHOLE):
    """Row reads into a list of so many cells."""
    return [Step(ROW, size, times, of)]


def flagged(rng, steps):
    """Half of the reads and seeks are done over a lent cursor."""
    return [step._replace(over=step.kind not in (PUT, CHOOSE) and rng.random() < 0.5) for step in steps]


def put(row, passed, count=0):
    """Nothing of the table's: the cursor is given this place and count, whether they belong or not."""
    return [Step(PUT, row, 1, Place(passed, count))]


def choose(*columns):
    """Nor this: the cursor is given these columns, which may not be the layout's."""
    return [Step(CHOOSE, sum(1 << c for c in set(columns)), 1, WHOLE)]


def first(most):
    """The first bytes of the area."""
    return Lent(False, most)


OTHER = Lent(True, FAR)


def p(count, offset):
    return struct.pack('>II', count, offset)


def q(count, offset):
    return struct.pack('>QQ', count, offset)


def field_bytes(of):
    return form_of(text(of))[2]


def flat(of):
    """The bytes of a row: bytes, or a list of them."""
    return of if isinstance(of, bytes) else b''.join(of)


def header_of(forms, rows, pcount, gap, written=None, keywords=()):
    """NAXIS1 is that of `forms`; `written`, if given, stands in the header in their place. `keywords` are names of
    TSCALn, TZEROn and TNULLn, each with its value."""
    naxis1 = sum(field_bytes(form) for form in forms)
    theap = None if gap is None else naxis1 * rows + gap
    records = table(written or forms, naxis1, rows=rows, pcount=pcount, theap=theap)
    return ended(records + [keyword(name, value) for name, value in keywords])


def case(why, said, forms, rows, steps, heap=b'', gap=None, extra=b'', indexes=None, follow=True, other=b'',
         opening=WHOLE, short=0, written=None, keywords=()):
    """What it is for; its answers by hand (None where that is long); the forms, the rows (a number of rows of no bytes,
    or the bytes of each), the steps; what follows the rows up to PCOUNT, and THEAP's distance from the main size (None
    for no THEAP); bytes after it, the choice (None for all), whether the heap is on, the second area, what the opening
    is lent, by how many bytes the first area is too short, the forms as the header has them where they are bad, the
    values of TSCALn, TZEROn and TNULLn by their names."""
    rows = [b''] * rows if isinstance(rows, int) else [flat(row) for row in rows]
    naxis1 = sum(field_bytes(form) for form in forms)
    assert all(len(row) == naxis1 for row in rows), why
    area = b''.join(rows) + heap + extra
    area = area[:len(area) - short]
    header = header_of(forms, len(rows), len(heap), gap, written, dict(keywords).items())
    return Case(why, said, header, area, other, indexes, follow, opening, flagged(random.Random(why), steps))


def numbers_in(words):
    """The numbers of a value that is printed, or U."""
    return ','.join(words[1:] or words)


def answers(lines):
    """The answers of a case in short: the numbers of each cell, U for an unset one, `end`, `sought`, a refusal as 13:0,
    the number of a row read as row:2. A list that is not empty stands behind, each cell by its numbers or as _ where
    none was stored."""
    made, lists = [], []
    for line in lines[1:]:
        words = line.split()
        if words[0] == 'list':
            untouched = words[2:] == told(UNTOUCHED).split()
            lists[-1].append('_' if untouched else numbers_in(words[6:]))
        elif words[0] not in ('at', 'opened'):
            short = {'cell': numbers_in(words[4:]), 'refused': ':'.join(words[1:]), 'row': ':'.join(words)}
            made.append(short.get(words[0], words[0]))
            lists.append([])
    return ' '.join(one + ('[%s]' % ';'.join(cells) if cells else '') for one, cells in zip(made, lists))


def be(width, *numbers):
    """Numbers of so many bytes each; negative ones as two's complement."""
    return b''.join((n % 256 ** width).to_bytes(width, 'big') for n in numbers)


LETTERS = 'LXBIJKAEDCM'


def run(letter, count):
    """So many items of a letter, each byte with its own number."""
    size = item_count(letter, count) * item_width(letter)
    return bytes((LETTERS.index(letter) * 23 + 7 * i) % 256 for i in range(size))


EXAMPLE = ['1I', '1J']
EXAMPLE_ROWS = [bytes.fromhex('000100001f40'), bytes.fromhex('ffff0000002a')]

FLOATS = [0x7F800000, 0xFF800000, 0x80000000, 0x7FC00000, 0xFFC00000, 0x7F800001, 0xFF800001, 0x7FBFFFFF, 0x7FC12345,
          0xFFFFFFFF, 0x7FFFFFFF, 1, 0x807FFFFF, 0x00800000, 0x7F7FFFFF, 0x3F800000, 0xC0490FDB]
DOUBLES = [0x7FF << 52, 0xFFF << 52, 1 << 63, 0x7FF8 << 48, 0xFFF8 << 48, (0x7FF << 52) + 1, (0xFFF << 52) + 1,
           (0x7FF << 52) + (1 << 51) - 1, 0x7FF8123456789ABC, ALL64, 2 ** 63 - 1, 1, 0x800FFFFFFFFFFFFF, 1 << 52,
           (0x7FF << 52) - 1, 0x3FF << 52, 0xC00921FB54442D18]


def value_cases():
    """One item after the other."""
    made = [
        case('the example: four cells, the end, and past it', '1 8000 -1 42 end end', EXAMPLE, EXAMPLE_ROWS,
             reads(6)),
        case('L bytes', '1 0 2 3,116 3,102 3,1 3,255 3,49 3,32 1 end', ['10L'], [b'TF\0tf\x01\xff1 T'], reads(11)),
        case('bits: 1, 8, 9, 16, 17 and 0 of them', '128 1 255 128 0 1 2 3 4 end',
             ['1X', '8X', '9X', '0X', '16X', '17X'],
             [be(1, 128, 1, 255, 128, 0, 1, 2, 3, 4)], reads(10)),
        case('bytes and characters', '0 32 127 128 255 0 65 127 128 255 end', ['5B', '5A'],
             [be(1, 0, 32, 127, 128, 255, 0, 65, 127, 128, 255)], reads(11)),
        case('integers of 16 bits', '-32768 32767 -1 0 1 -2 -32767 end', ['7I'],
             [be(2, -32768, 32767, -1, 0, 1, -2, -32767)], reads(8)),
        case('integers of 32 bits', '-2147483648 2147483647 -1 0 1 -2 -2147483647 65536 end', ['8J'],
             [be(4, -2 ** 31, 2 ** 31 - 1, -1, 0, 1, -2, 1 - 2 ** 31, 65536)], reads(9)),
        case('integers of 64 bits',
             '-9223372036854775808 9223372036854775807 -1 0 1 -2 -9223372036854775807 4294967296 end', ['8K'],
             [be(8, -2 ** 63, 2 ** 63 - 1, -1, 0, 1, -2, 1 - 2 ** 63, 2 ** 32)], reads(9)),
        case('single floats: infinities, -0.0, NaNs with payloads, signalling ones, subnormals',
             ' '.join('%d' % bits for bits in FLOATS) + ' end', ['%dE' % len(FLOATS)], [be(4, *FLOATS)],
             reads(len(FLOATS) + 1)),
        case('double floats: the same', ' '.join('%d' % bits for bits in DOUBLES) + ' end', ['%dD' % len(DOUBLES)],
             [be(8, *DOUBLES)], reads(len(DOUBLES) + 1)),
        case('complex ones: NaN beside a number, both ways', '2143289344,1065353216 1065353216,4286578689 end',
             ['2C'], [be(4, 0x7FC00000, 0x3F800000, 0x3F800000, 0xFF800001)], reads(3)),
        case('double complex ones: NaN beside a number, both ways',
             '9221120237041090560,4607182418800017408 4607182418800017408,18442240474082181121 end', ['2M'],
             [be(8, DOUBLES[3], DOUBLES[15], DOUBLES[15], DOUBLES[6])], reads(3)),
        case('no digits, and rests that are ignored', '65 66 67 258 772 5 6 end', ['A', '2A8', 'I ', '1I(3)', '2BZ'],
             [b'ABC' + be(1, 1, 2, 3, 4, 5, 6)], reads(8)),
    ]
    for count in (0, 1, 2, 3):
        forms = ['%d%s' % (count, letter) for letter in LETTERS]
        row = b''.join(run(letter, count) for letter in LETTERS)
        other = bytes(255 - byte for byte in row)
        made.append(case('every letter, %d of each, two rows' % count, 'end end' if count == 0 else None, forms,
                         [row, other], reads(24 * count + 2)))
    return made


def arrays(descriptor, counts, start=0):
    """The descriptors of arrays of every letter, one behind the other, and the heap."""
    fields, heap = [], b' ' * start
    for letter, count in zip(LETTERS, counts):
        fields.append(descriptor(count, len(heap)))
        heap += run(letter, count)
    return fields, heap


def heap_cases():
    made = []
    counts = [3, 9, 2, 1, 2, 3, 4, 2, 1, 2, 1]
    for letter, descriptor in (('P', p), ('Q', q)):
        forms = ['1' + letter + element for element in LETTERS]
        one, heap = arrays(descriptor, counts)
        two = [descriptor(1, number(field[len(field) // 2:])) for field in one]
        none = [descriptor(0, 0)] * len(LETTERS)
        for follow in (True, False):
            made.append(case('%s of every letter, heap %s' % (letter, 'on' if follow else 'off'), None, forms,
                             [one, none, two], reads(40), heap=heap, follow=follow))
    made += [
        case('`PI`, `00001PI(9)`, `QI`: one descriptor each', '513 1027 1541 2055 end', ['PI', '00001PI(9)', 'QI'],
             [p(1, 0) + p(1, 2) + q(2, 4)], reads(5), heap=be(1, 2, 1, 4, 3, 6, 5, 8, 7)),
        case('one descriptor each, the heap off', '1,0 1,2 2,4 end', ['PI', '00001PI(9)', 'QI'],
             [p(1, 0) + p(1, 2) + q(2, 4)], reads(4), heap=be(1, 2, 1, 4, 3, 6, 5, 8, 7), follow=False),
        case('count 0 with any offset', 'end end', ['1PB', '1QM', '1PX', '1QX'],
             [p(0, FAR) + q(0, ALL64) + p(0, 0) + q(0, 2 ** 63)] * 2, reads(2), heap=b'abc'),
        case('count 0 with any offset, the heap off',
             '0,4294967295 0,18446744073709551615 0,0 0,9223372036854775808 end',
             ['1PB', '1QM', '1PX', '1QX'], [p(0, FAR) + q(0, ALL64) + p(0, 0) + q(0, 2 ** 63)], reads(5), heap=b'abc',
             follow=False),
        case('no heap: count 0, then 1', '13:0 sought end', ['1PB'], [p(0, 5), p(1, 0), p(0, 0)],
             reads() + seek(2) + reads()),
        case('one array for two rows, and one inside another', '1 2 3 4 515 258 1 2 3 4 end', ['1PB', '1QI'],
             [p(4, 0) + q(1, 1), p(0, 0) + q(1, 0), p(4, 0) + q(0, 0)], reads(11), heap=be(1, 1, 2, 3, 4)),
    ]
    extremes = be(2, -32768, 32767, -1) + be(4, -2 ** 31, 2 ** 31 - 1, -1) + be(8, -2 ** 63, 2 ** 63 - 1, -1)
    made += [
        case('extreme integers in arrays', '-32768 32767 -1 -2147483648 2147483647 -1 -9223372036854775808 '
             '9223372036854775807 -1 end', ['1PI', '1QJ', '1PK'], [p(3, 0) + q(3, 6) + p(3, 18)], reads(10),
             heap=extremes),
        case('infinities, -0.0 and NaNs in arrays', ' '.join('%d' % bits for bits in FLOATS + DOUBLES) + ' end',
             ['1QE', '1PD'], [q(len(FLOATS), 0) + p(len(DOUBLES), 4 * len(FLOATS))],
             reads(len(FLOATS + DOUBLES) + 1), heap=be(4, *FLOATS) + be(8, *DOUBLES)),
        case('L bytes and NaN pairs in arrays', '1 0 2 3,116 3,255 2143289344,4286578689 '
             '9221120237041090560,18442240474082181121 end', ['1PL', '1QC', '1PM'], [p(5, 0) + q(1, 5) + p(1, 13)],
             reads(8), heap=b'TF\0t\xff' + be(4, 0x7FC00000, 0xFF800001) + be(8, DOUBLES[3], DOUBLES[6])),
    ]
    return made


def each_read(rows):
    """A seek to each row and two reads there."""
    return [step for row in range(rows) for step in seek(row) + reads(2)]


def end_cases():
    """Arrays at the end of the heap and past it."""
    room = 16
    exact, past = [], []
    for letter in LETTERS:
        items = 8 * 16 if letter == 'X' else room // item_width(letter)
        exact.append([p(items, 0), q(items, 0)])
        past.append([p(items, 1), q(items, 1)])
    heap = bytes(range(200, 200 + room))
    made = []
    for letter, one, two in zip(LETTERS, exact, past):
        forms = ['1P' + letter, '1Q' + letter]
        made.append(case('%s arrays that fill the heap, then one byte past it' % letter, None, forms,
                         [one, two, [one[0], two[1]], [p(0, 0), two[1]]],
                         reads(34) + each_read(4) + reads(20), heap=heap))
    large = [FAR, FAR - 1, 2 ** 31, 2 ** 30, 2 ** 29, 2 ** 28]
    near = [p(n, 0) for n in large] + [p(1, n) for n in large] + [p(FAR, FAR), p(2 ** 28, FAR), p(2 ** 29, 2 ** 31)]
    huge = [2 ** k for k in (63, 62, 61, 60, 59, 32)] + [ALL64, ALL64 - 7, 2 ** 60 + 1, 2 ** 61 + 1, 2 ** 63 + 1]
    far = [q(n, 0) for n in huge] + [q(1, n) for n in huge] + [q(ALL64, ALL64), q(1, 2 ** 64 - 16), q(2 ** 60, 2 ** 63)]
    made += [
        case('P counts and offsets near 2^32', ' '.join(['sought 13:0 13:0'] * len(near)), ['1PM'], near,
             each_read(len(near)), heap=heap),
        case('the same for bits and bytes', None, ['1PX', '1PB'], [field * 2 for field in near], each_read(len(near)),
             heap=heap),
        case('P counts and offsets near 2^32, the heap off', None, ['1PX', '1PB'], [field * 2 for field in near],
             reads(2 * len(near) + 1), heap=heap, follow=False),
        case('Q counts and offsets whose products and sums pass 2^64', ' '.join(['sought 13:0 13:0'] * len(far)),
             ['1QM'], far, each_read(len(far)), heap=heap, gap=0),
        case('the same for bits', None, ['1QX'], far, each_read(len(far)), heap=heap),
        case('the same for I, J and D', None, ['1QI', '1QJ', '1QD'], [field * 3 for field in far],
             each_read(len(far)), heap=heap, indexes=[2]),
        case('Q counts and offsets like these, the heap off', None, ['1QM'], far, reads(len(far) + 1),
             heap=heap, follow=False),
        # 3 rows of 16 bytes: THEAP 48, and 2^64 - 48 leads back to byte 0
        case('Q offsets that lead back to the rows if the sum wraps', '13:0 sought 13:0 sought 13:0', ['1QB'],
             [q(1, 2 ** 64 - 48), q(1, 2 ** 64 - 1), q(16, 2 ** 64 - 16)],
             reads() + seek(1) + reads() + seek(2) + reads(), heap=b'x'),
        case('bit arrays: 1, 7, 8, 9, 16 and 17 bits', '1 1 1 1 2 1 2 1 2 3 end', ['1PX'],
             [p(n, 0) for n in (1, 7, 8, 9, 16, 17)], reads(11), heap=be(1, 1, 2, 3)),
        case('bit arrays that end at the heap\'s end, and one bit more',
             '3 13:1 sought 13:0 sought 2 3 13:1 sought 13:0 sought 1 2 3 end', ['1PX', '1QX'],
             [p(8, 2) + q(9, 2), p(9, 2) + q(0, 0), p(16, 1) + q(17, 1), p(25, 0) + q(1, 0), p(24, 0) + q(0, 7)],
             reads(2) + seek(1) + reads() + seek(2) + reads(3) + seek(3) + reads() + seek(4) + reads(4),
             heap=be(1, 1, 2, 3)),
        case('THEAP five bytes after the rows', '10 11 12 2571 2828 13:1 13:1', ['1PB', '1QI'],
             [p(3, 0) + q(1, 0), p(0, 9) + q(1, 1), p(0, 0) + q(1, 2)], reads(7),
             heap=be(1, 1, 2, 3, 4, 5, 10, 11, 12), gap=5),
        case('THEAP at the very end: count 0 is sound, a bit is not', '13:0 13:0', ['1PX'], [p(0, 1), p(1, 0)],
             reads(2), heap=be(1, 1, 2, 3), gap=3),
        case('bytes after PCOUNT are no heap', '7 8 13:0 sought 13:0', ['1PB'], [p(2, 0), p(3, 0), p(1, 2)],
             reads(3) + seek(2) + reads(), heap=be(1, 7, 8), extra=be(1, 9, 10, 11)),
        case('an offset at the heap\'s end with count 0 and 1', '13:0 13:0', ['1QD'], [q(0, 8), q(0, 9), q(1, 8)],
             reads(2), heap=bytes(8)),
    ]
    return made


def row_cases():
    """Empty rows, rows of no bytes, no rows, no columns."""
    empty, bad = p(0, 0), p(9, 0)
    holes = [empty, empty, p(2, 0), empty, p(1, 1), empty, empty]
    return [
        case('NAXIS2 0: the end at once, no row to seek', 'end end 12:0 12:1 end', ['1I', '1PB'], [],
             reads(2) + seek(0) + seek(1) + reads(), heap=b'abc'),
        case('NAXIS2 0 and no byte at all', 'end 12:0', ['0E'], 0, reads() + seek(0)),
        case('seven rows of no bytes', 'end sought end 12:7 sought sought end', ['0E', '0X', '0A'], 7,
             reads() + seek(3) + reads() + seek(7) + seek(6) + seek(0) + reads()),
        case('100,000 rows of no bytes', 'end sought end 12:100000', ['0K'], 100000,
             reads() + seek(99999) + reads() + seek(100000)),
        case('a chosen column of no items beside one with bytes', 'end sought end', ['2B', '0J'], [b'ab', b'cd', b'ef'],
             reads() + seek(1) + reads(), indexes=[1]),
        case('TFIELDS 0: no column left', '11:0', [], 0, reads(2)),
        case('TFIELDS 0 with rows and a heap, and a choice', '11:0', [], 5, reads(2), heap=b'abc', indexes=[0, 1]),
        case('empty rows before, between and after', '7 8 8 end sought 7 sought 8 end', ['1PB'], holes,
             reads(4) + seek(0) + reads() + seek(3) + reads(2), heap=be(1, 7, 8)),
        case('the same with the heap off', '0,0 0,0 2,0 0,0 1,1 0,0 0,0 end', ['1PB'], holes, reads(8),
             heap=be(1, 7, 8), follow=False),
        case('empty rows only', 'end sought end', ['1PB', '1QK'], [p(0, 1) + q(0, 2)] * 4,
             reads() + seek(2) + reads(), heap=be(1, 7, 8)),
        case('a 13 behind empty rows: nothing moves, not even past them', '13:0 13:0 sought 13:0 13:0 sought 13:0 '
             'sought 8 end sought 13:0', ['1PB'], [empty, empty, bad, p(1, 1), empty],
             reads(2) + seek(1) + reads(2) + seek(2) + reads() + seek(3) + reads(2) + seek(0) + reads(),
             heap=be(1, 7, 8)),
        case('a 13 behind a cell and empty rows', '7 8 13:0 13:0 12:5 13:0 sought end', ['1PB'],
             [p(2, 0), empty, empty, bad, empty], reads(4) + seek(5) + reads() + seek(4) + reads(), heap=be(1, 7, 8)),
        case('a 13 between cells of one row', '1 2 13:1 13:1 sought 1 sought 3 7 4 end', ['2B', '1PI', '1B'],
             [be(1, 1, 2) + p(1, 1) + be(1, 9), be(1, 3, 7) + p(0, 1) + be(1, 4)],
             reads(4) + seek(0) + reads() + seek(1) + reads(4), heap=be(1, 7, 8)),
        case('the same, its column not chosen', '1 2 9 3 7 4 end', ['2B', '1PI', '1B'],
             [be(1, 1, 2) + p(1, 1) + be(1, 9), be(1, 3, 7) + p(0, 1) + be(1, 4)], reads(7), heap=be(1, 7, 8),
             indexes=[0, 2]),
        case('the same, the heap off', '1 2 1,1 9 3 7 0,1 4 end', ['2B', '1PI', '1B'],
             [be(1, 1, 2) + p(1, 1) + be(1, 9), be(1, 3, 7) + p(0, 1) + be(1, 4)], reads(9), heap=be(1, 7, 8),
             follow=False),
        case('two 13s in a row: the first is told', '13:1 13:1', ['1PB', '1PB', '1QB'],
             [p(0, 0) + p(3, 0) + q(3, 0)], reads(2), heap=be(1, 7, 8)),
        case('a 13 as the last entry of all', '5 13:1 13:1', ['1B', '1QE'], [b'\x05' + q(1, 0)], reads(3),
             heap=be(1, 7, 8)),
    ]


def choice_cases():
    rows = [be(1, 1, 2, 3), be(1, 4, 5, 6)]
    three = ['1B', '1B', '1B']
    bytes64 = bytes(range(64))

    def choice(why, said, indexes, times=5):
        return case(why, said, three, rows, reads(times), indexes=indexes)

    return [
        choice('a choice of column 9 of 3', '11:0', [9]),
        choice('an empty choice', '11:0', []),
        choice('unknown columns only, some far', '11:0', [3, 64, 63, 65, 2 ** 32, 2 ** 32 + 1, 2 ** 63, ALL64]),
        choice('unknown ones are dropped', '2 5 end end end', [3, 1, 64, ALL64, 2 ** 32]),
        choice('repeated ones count once', '1 2 4 5 end', [1, 1, 0, 1, 0]),
        choice('the order is ascending', '1 3 4 6 end', [2, 0]),
        choice('the last column alone', '3 6 end end end', [2]),
        choice('every column by name', '1 2 3 4 5 6 end', [0, 1, 2], times=7),
        choice('100 indexes, the known ones at the end', '1 3 4 6 end', [200 + k for k in range(98)] + [2, 0]),
        choice('100 times the same', '2 5 end end end', [1] * 100),
        case('64 columns, all', None, ['1B'] * 64, [bytes64, bytes64[::-1]], reads(129)),
        case('64 columns, the last and a few more', '10 31 63 53 32 0 end', ['1B'] * 64, [bytes64, bytes64[::-1]],
             reads(7), indexes=[63, 64, 10, 31, 63]),
        case('a choice past byte 0, a seek before the first read', 'sought 3 end sought sought 6 sought 3 end',
             ['2I', '1J'], [be(2, 1, 2) + be(4, 6), be(2, 4, 5) + be(4, 3)],
             seek(1) + reads(2) + seek(1) + seek(0) + reads() + seek(1) + reads(2), indexes=[1]),
        case('a choice with a hole, heap on', '7 8 1 8 2 end', ['1PB', '2D', '1B'],
             [p(2, 0) + bytes(16) + b'\x01', p(1, 1) + bytes(16) + b'\x02'], reads(6), heap=be(1, 7, 8),
             indexes=[2, 0, 2]),
    ]


def seek_cases():
    rows = [be(2, n, n + 1) for n in (10, 20, 30)]
    everywhere = []
    for row in (0, 1, 2, 2, 1, 0, 3, 4, 2 ** 32, 2 ** 32 + 1, 2 ** 63, ALL64):
        everywhere += seek(row) + reads()
    items = ['1PB', '1B']
    item_rows = [p(3, 0) + b'\x01', p(0, 0) + b'\x02', p(2, 1) + b'\x03']
    return [
        case('seeks to every row and to rows that are none',
             'sought 10 sought 20 sought 30 sought 30 sought 20 sought 10 12:3 11 12:4 20 12:4294967296 21 '
             '12:4294967297 30 12:9223372036854775808 31 12:18446744073709551615 end', ['2I'], rows, everywhere),
        case('seeks after the end', '10 11 20 21 30 31 end sought 30 31 end 12:3 end sought 10', ['2I'], rows,
             reads(7) + seek(2) + reads(3) + seek(3) + reads() + seek(0) + reads()),
        case('a seek to the row where the place is', '10 sought 10 11 sought 20 sought 20 21 30', ['2I'], rows,
             reads() + seek(0) + reads(2) + seek(1) + reads() + seek(1) + reads(3)),
        case('seeks between the items of an array', '7 8 sought 2 8 sought 7 8 9 12:3 1 sought 8 9 3 end', items,
             item_rows, reads(2) + seek(1) + reads(2) + seek(0) + reads(3) + seek(3) + reads() + seek(2) + reads(4),
             heap=be(1, 7, 8, 9)),
        case('seeks alone: the count stays 0', 'sought sought 12:3 sought 12:18446744073709551615', ['2I'], rows,
             seek(2) + seek(0) + seek(3) + seek(1) + seek(ALL64)),
    ]


def area_cases():
    rows = [be(2, 10, 11), be(2, 20, 21)]
    forms, heap = ['1PB', '1B'], be(1, 7, 8, 9)
    whole = [p(3, 0) + b'\x01', p(1, 0) + b'\x02']
    # two entries in row 0, then one entry that is a 13, then none in row 0
    less = flat(p(1, 2) + b'\x04') + flat(p(2, 0) + b'\x05') + be(1, 17, 18, 19)
    worse = flat(p(4, 0) + b'\x04') + flat(p(9, 0) + b'\x05') + be(1, 17, 18, 19)
    later = seek(0) + reads(3) + reads(1, OTHER) + seek(0, OTHER) + seek(1) + reads(2, OTHER) + reads(2)
    return [
        case('an area one byte short: the entry\'s 10', '', ['2I'], rows, reads(), short=1),
        case('an area one byte short of its heap', '', ['1PB'], [p(0, 0)], reads(), heap=b'abc', short=1),
        case('an area longer than needed', '10 11 20 21 end end', ['2I'], rows, reads(6), extra=bytes(50)),
        case('the opening is lent one byte less', '10:0', ['2I'], rows, reads(), opening=first(7)),
        case('10 comes before 11 at the opening', '10:0', ['2I'], rows, reads(), opening=first(7), indexes=[5]),
        case('steps that are lent less: nothing moves', '10 10:0 10:0 11 10:0 20 10:0 10:0 21 end 10:0 10:0', ['2I'],
             rows, reads() + reads(1, first(7)) + reads(1, first(0)) + reads() + seek(1, first(7)) + reads()
             + seek(9, first(7)) + seek(0, first(3)) + reads(2) + reads(1, first(7)) + seek(1, first(7))),
        case('exactly the bytes needed are enough', '10 sought 20 21 end', ['2I'], rows,
             reads(1, first(8)) + seek(1, first(8)) + reads(3, first(8)), extra=bytes(8)),
        case('another area: the same place, its bytes', '10 1 20 3 end', ['2I'], rows,
             reads() + reads(1, OTHER) + reads() + reads(2, OTHER), other=be(2, 0, 1, 2, 3)),
        case('another area with fewer entries: the place does not belong',
             'sought 7 8 9 10:0 10:0 sought 17 18 10:0 10:0',
             forms, whole, later, heap=heap, other=less),
        case('a place that belongs by one entry', '7 1 sought 17 2 end', forms, [p(3, 0) + b'\x01', p(1, 0) + b'\x02'],
             reads() + reads(1, Lent(True, 21)) + seek(1) + reads(1, OTHER) + reads(1) + reads(1, OTHER), heap=heap,
             other=flat(p(1, 2) + b'\x01') + less[9:]),
        case('another area with a 13 in the place of an array: one entry', '7 4 sought 13:0 13:0 7 8 10:0 10:0 9 1 2',
             forms, [p(3, 0) + b'\x01', p(0, 0) + b'\x02'],
             reads() + reads(1, OTHER) + seek(0, OTHER) + reads(2, OTHER) + reads(2) + reads(1, OTHER)
             + seek(0, OTHER) + reads(3), heap=heap, other=worse),
        case('the same with the heap off: every row has two entries', '3,0 4 1,0 5 end', forms, whole,
             reads() + reads(1, OTHER) + reads() + reads(2, OTHER), heap=heap, other=worse, follow=False),
        case('another area where the row is empty: a place at its start belongs', '1 2 end', ['1PB'],
             [p(2, 0), p(1, 0)], reads(1) + reads(1) + reads(1, OTHER), heap=be(1, 1, 2), other=bytes(18)),
        case('another area where the row is empty: a place inside does not', '1 10:0 10:0 10:0 2 sought end', ['1PB'],
             [p(2, 0), p(0, 0)],
             reads(1) + reads(1, OTHER) + seek(0, OTHER) + seek(2, OTHER) + reads(1) + seek(1, OTHER) + reads(1, OTHER),
             heap=be(1, 1, 2), other=bytes(18)),
    ]


def place_cases():
    """Cursors that somebody made."""
    rows = [be(2, 10, 11), be(2, 20, 21)]
    forms, heap = ['1PB', '1B'], be(1, 7, 8, 9)
    items = [p(3, 0) + b'\x01', p(0, 0) + b'\x02', p(5, 0) + b'\x03']
    return [
        case('the count stops', 'put 10 11 20 sought 20 put 21 end', ['2I'], rows,
             put(0, 0, LARGEST_COUNT - 1) + reads(3) + seek(1) + reads() + put(1, 1, LARGEST_COUNT) + reads(2)),
        case('a place in each row, and at its end', 'put 11 put 21 put 10:0 10:0 put 10:0 put end put 10:0 10:0',
             ['2I'], rows, put(0, 1, 5) + reads() + put(1, 1, 6) + reads() + put(0, 2, 7) + reads() + seek(0)
             + put(1, FAR) + reads() + put(2, 0, 9) + reads() + put(2, 1) + reads() + seek(1)),
        case('a row that is none', 'put 10:0 10:0 put 10:0 10:0 put 10:0 put 10', ['2I'], rows,
             put(3, 0) + reads() + seek(0) + put(ALL64, 0, 3) + reads() + seek(5) + put(2 ** 32, 1) + reads()
             + put(0, 0) + reads()),
        case('a place between array items, and behind a 13',
             'put 9 1 2 13:0 put 1 put 10:0 put 2 put 10:0 put 13:0 put 3 end put 10:0', forms, items,
             put(0, 2) + reads(4) + put(0, 3) + reads() + put(0, 4) + reads() + put(1, 0) + reads() + put(1, 1)
             + reads() + put(2, 0) + reads() + put(2, 1) + reads(2) + put(2, 2) + reads(), heap=heap),
        case('places between descriptors, the heap off', 'put 1 0,0 put 10:0 put 2 5,0 put 3 end put 10:0', forms,
             items, put(0, 1) + reads(2) + put(0, 2) + reads() + put(1, 1) + reads(2) + put(2, 1) + reads(2) + put(3, 1)
             + reads(), heap=heap, follow=False),
        case('other choices: another column, both, none, unknown ones, one of two',
             '10 put 10:0 10:0 put 11 put 10:0 10:0 put 10:0 10:0 put 10:0 put 21 put sought 10 20 end', ['1I', '1I'],
             rows, reads() + choose(1) + reads() + seek(0) + choose(0, 1) + reads() + choose() + reads() + seek(0)
             + choose(0, 2) + reads() + seek(0) + choose(63) + reads() + choose(1) + reads() + choose(0) + seek(0)
             + reads(3)),
        case('other choices of 64 columns', 'put 63 put 63 62 put 10:0 put 0 end', ['1B'] * 64,
             [bytes(range(64)), bytes(range(63, -1, -1))],
             choose(63) + reads() + choose(*range(64)) + reads(2) + choose(0, 63) + reads() + put(1, 1) + reads(2)),
        case('a row of no entries', 'put end put 10:0 10:0', ['0E'], 3,
             put(1, 0, 4) + reads() + put(1, 1) + reads() + seek(0)),
    ]


def row_read_cases():
    """Rows into lists: how much is left of a row, and how long the list is."""
    rows = [be(2, 10, 11), be(2, 20, 21)]
    four, four_rows = ['3B', '1I'], [be(1, 1, 2, 3) + be(2, 258), be(1, 4, 5, 6) + be(2, -1)]
    holes = [p(0, 0), p(0, FAR), p(2, 0), p(0, 0), p(1, 1), p(0, 5)]
    every = [''.join(pair) for pair in zip('3111111111', LETTERS)] + ['1M']
    every_row = b''.join(run(letter, 3 if letter == 'L' else 1) for letter in LETTERS)
    return [
        case('row reads of the example', 'row:2[1;8000;_] row:2[-1;42;_] end[_;_;_] end[_;_;_]', EXAMPLE, EXAMPLE_ROWS,
             row_reads(3, 4)),
        case('a list just long enough, one too short, none at all',
             'row:2[10;11] 14:2[_] 14:2 row:2[20;21] end end[_]', ['2I'], rows,
             row_reads(2) + row_reads(1) + row_reads(0) + row_reads(2) + row_reads(0) + row_reads(1)),
        case('the rest of a row after cell reads', '1 row:3[2;3;258;_] 4 5 6 row:1[-1;_] end[_;_]', four, four_rows,
             reads() + row_reads(4) + reads(3) + row_reads(2, 2)),
        case('14 tells the cells in the rest', '14:4[_;_;_] 1 14:3 14:3[_;_] 2 14:2[_] row:2[3;258] 14:4 4',
             four, four_rows, row_reads(3) + reads() + row_reads(0) + row_reads(2) + reads() + row_reads(1)
             + row_reads(2) + row_reads(0) + reads()),
        case('a row whose cells are all read leads to the next', '10 11 row:2[20;21;_] end[_;_;_]', ['2I'], rows,
             reads(2) + row_reads(3, 2)),
        case('cell reads between row reads', 'row:2[10;11] 20 row:1[21;_] end end[_] sought row:2[10;11;_] 20', ['2I'],
             rows, row_reads(2) + reads() + row_reads(2) + reads() + row_reads(1) + seek(0) + row_reads(3) + reads()),
        case('a row read stops at each empty row, a cell read passes them',
             'row:0[_] row:0 row:2[7;8;_] row:0[_] row:1[8] row:0 end[_] sought 7 row:1[8;_] 8 row:0[_] end', ['1PB'],
             holes, row_reads(1) + row_reads(0) + row_reads(3) + row_reads(1, 2) + row_reads(0) + row_reads(1) + seek(0)
             + reads() + row_reads(2) + reads() + row_reads(1) + reads(), heap=be(1, 7, 8)),
        case('rows of no bytes into lists', 'row:0 row:0[_] row:0[_;_;_;_] end end[_] 12:3 sought row:0 end',
             ['0E', '0X'], 3, row_reads(0) + row_reads(1) + row_reads(4) + row_reads(0) + row_reads(1) + seek(3)
             + seek(2) + row_reads(0) + reads()),
        case('100,000 rows of no bytes into lists', 'row:0 row:0 sought row:0[_] end sought row:0 row:0[_;_] end[_;_]',
             ['0K'], 100000, row_reads(0, 2) + seek(99999) + row_reads(1) + row_reads(0) + seek(99998) + row_reads(0)
             + row_reads(2, 2)),
        case('NAXIS2 0: a row read is at the end', 'end end[_;_] 12:0 end[_]', ['1I', '1PB'], [],
             row_reads(0) + row_reads(2) + seek(0) + row_reads(1), heap=b'abc'),
        case('row reads after the end', '10 11 20 21 end end end[_;_] sought row:2[20;21;_] end end[_]', ['2I'], rows,
             reads(5) + row_reads(0) + row_reads(2) + seek(1) + row_reads(3) + reads() + row_reads(1)),
        case('seeks between row reads', 'sought row:2[20;21;_] sought row:2[10;11] 20 sought 14:2[_] row:2[20;21] 12:2 '
             'end[_;_] sought 10 12:7 row:1[11;_]', ['2I'], rows,
             seek(1) + row_reads(3) + seek(0) + row_reads(2) + reads() + seek(1) + row_reads(1) + row_reads(2) + seek(2)
             + row_reads(2) + seek(0) + reads() + seek(7) + row_reads(2)),
        case('row reads of a choice', 'row:2[1;258;_] 14:2[_] 4 row:1[-1;_] end', ['1B', '2B', '1I'], four_rows,
             row_reads(3) + row_reads(1) + reads() + row_reads(2) + row_reads(0), indexes=[2, 0, 2, 9]),
        case('row reads of a chosen column of no items', 'row:0 row:0[_;_] end', ['2B', '0J'], [b'ab', b'cd'],
             row_reads(0) + row_reads(2) + row_reads(0), indexes=[1]),
        case('row reads of every letter', None, every, [every_row, every_row[::-1]],
             row_reads(13) + seek(0) + reads(4) + row_reads(12, 2) + row_reads(13) + seek(0) + row_reads(12)),
        case('long lists: 25 cells into 24, 25, 26, 27 and 40',
             '14:25[%s] row:25[%s] sought row:25[%s] sought row:25[%s] sought row:25[%s]' % (
                 ';'.join('_' * 24), '0;1;2;3;4;5;6;7;23;24', '0;1;2;3;4;5;6;7;23;24;_',
                 '0;1;2;3;4;5;6;7;23;24;_;_', '0;1;2;3;4;5;6;7;23;24;_;_;_;_;_'), ['25B'], [bytes(range(25))],
             row_reads(24) + row_reads(25) + seek(0) + row_reads(26) + seek(0) + row_reads(27) + seek(0)
             + row_reads(40)),
        case('512 cells into 512, and 513 of them',
             'put 14:512[%s] row:512[%s] put 14:513[%s] 0 row:512[%s] end[%s]' % (
                 ';'.join('_' * 10), '0;1;2;3;4;5;6;7;254;255', ';'.join('_' * 10), '1;2;3;4;5;6;7;8;255;0',
                 ';'.join('_' * 10)), ['256B', '256B', '0B', '1B'],
             [bytes(range(256)) * 2 + b'\x09', bytes(range(256)) * 2 + b'\x00'],
             choose(0, 1) + row_reads(511) + row_reads(512) + choose(0, 1, 3) + row_reads(512) + reads()
             + row_reads(512) + row_reads(511)),
    ]


def row_heap_cases():
    """Row reads of arrays."""
    forms, heap = ['2B', '1PI', '1B'], be(1, 7, 8)
    bad = [be(1, 1, 2) + p(1, 1) + be(1, 9), be(1, 3, 7) + p(0, 1) + be(1, 4), be(1, 5, 6) + p(1, 0) + be(1, 8)]
    mixed = ['1PB', '1B', '1QI']
    mixed_rows = [p(3, 0) + be(1, 50) + q(1, 1), p(0, 9) + be(1, 60) + q(0, ALL64), p(1, 2) + be(1, 70) + q(0, 0)]
    counts = [3, 9, 2, 1, 2, 3, 4, 2, 1, 2, 1]
    made = []
    for letter, descriptor in (('P', p), ('Q', q)):
        one, full = arrays(descriptor, counts)
        none = [descriptor(0, 0)] * len(LETTERS)
        for follow in (True, False):
            made.append(case('row reads of %s of every letter, heap %s' % (letter, 'on' if follow else 'off'), None,
                             ['1' + letter + element for element in LETTERS], [one, none],
                             row_reads(22) + row_reads(23) + row_reads(11) + seek(0) + reads(4) + row_reads(25)
                             + row_reads(0), heap=full, follow=follow))
    made += [
        case('13 comes before 14, and nothing is stored',
             '13:1 13:1[_;_;_;_;_] 1 13:1[_] 13:1[_;_] 2 13:1[_] 13:1 13:1 sought row:3[3;7;4] row:4[5;6;1800;8]',
             forms, bad, row_reads(0) + row_reads(5) + reads() + row_reads(1) + row_reads(2) + reads() + row_reads(1)
             + row_reads(0) + reads() + seek(1) + row_reads(3) + row_reads(4), heap=heap),
        case('a 13 that is passed is not in the rest', 'put 14:1 row:1[9;_] put 13:1[_;_] put 10:0[_;_]', forms, bad,
             put(0, 3, 7) + row_reads(0) + row_reads(2) + put(0, 2) + row_reads(2) + put(0, 4) + row_reads(2),
             heap=heap),
        case('row reads beside a 13 whose column is not chosen', 'row:3[1;2;9] row:3[3;7;4] 14:3[_;_]', forms, bad,
             row_reads(3, 2) + row_reads(2), heap=heap, indexes=[0, 2]),
        case('row reads of the same, the heap off', 'row:4[1;2;1,1;9] 14:4[_;_;_] 3 7 row:2[0,1;4;_] row:4[5;6;1,0;8]',
             forms, bad, row_reads(4) + row_reads(3) + reads(2) + row_reads(3) + row_reads(4), heap=heap,
             follow=False),
        case('two 13s: a row read tells the first in the rest', '13:1[_] put 13:2[_] 13:2 put 10:0',
             ['1PB', '1PB', '1QB'], [p(0, 0) + p(3, 0) + q(3, 0)],
             row_reads(1) + put(0, 1) + row_reads(1) + row_reads(0) + put(0, 2) + row_reads(0), heap=heap),
        case('a 13 in a later row does not matter yet', 'row:2[7;8;_] row:0[_] 13:0[_] 13:0', ['1PB'],
             [p(2, 0), p(0, 3), p(3, 0)], row_reads(3) + row_reads(1, 2) + reads(), heap=heap),
        case('a cell read that meets a 13 behind empty rows, then row reads', '13:0 row:0[_] row:0 13:0[_] 13:0',
             ['1PB'], [p(0, 0), p(0, 1), p(9, 0)], reads() + row_reads(1) + row_reads(0) + row_reads(1) + reads(),
             heap=heap),
        case('the rest of an array, and what is behind it',
             '7 row:4[8;9;50;2057;_] row:1[60] 14:2[_] 9 row:1[70] end sought 7 8 9 row:2[50;2057] sought 7 8 9 50 '
             'row:1[2057]', mixed, mixed_rows,
             reads() + row_reads(5) + row_reads(1) + row_reads(1) + reads() + row_reads(1) + row_reads(0) + seek(0)
             + reads(3) + row_reads(2) + seek(0) + reads(4) + row_reads(1), heap=be(1, 7, 8, 9)),
        case('extreme numbers in a list', 'row:7[-32768;32767;-9223372036854775808;2143289344;9221120237041090560,1;'
             '3,116;2]', ['1PI', '1QK', '1PE', '1QM', '1PL'], [p(2, 0) + q(1, 4) + p(1, 12) + q(1, 16) + p(2, 32)],
             row_reads(7),
             heap=be(2, -32768, 32767) + be(8, -2 ** 63) + be(4, 0x7FC00000) + be(8, DOUBLES[3], 1) + b't\0'),
        case('900 cells of one heap', '14:900[%s] put 14:513[%s] 87 row:512[%s]' % (
            ';'.join('_' * 10), ';'.join('_' * 10), '88;89;90;91;92;93;94;95;42;43'), ['1PB', '1QB', '1PX'],
            [p(300, 0) + q(300, 0) + p(2400, 0)], row_reads(512) + put(0, 387) + row_reads(512) + reads()
            + row_reads(512), heap=bytes(k % 256 for k in range(300))),
    ]
    return made


def row_place_cases():
    """Row reads that are lent what does not belong, or almost."""
    rows = [be(2, 10, 11), be(2, 20, 21)]
    forms, heap = ['1PB', '1B'], be(1, 7, 8, 9)
    whole = [p(3, 0) + b'\x01', p(0, 0) + b'\x02']
    less = p(1, 2) + b'\x04' + p(2, 0) + b'\x05' + be(1, 17, 18, 19)
    worse = p(4, 0) + b'\x04' + p(0, 0) + b'\x05' + be(1, 17, 18, 19)
    return [
        case('the count of row reads stops', 'put row:2[10;11] row:2[20;21] put row:2[20;21] put 14:2[_] row:2[10;11] '
             'put row:1[11] row:2[20;21;_] end', ['2I'], rows,
             put(0, 0, LARGEST_COUNT - 3) + row_reads(2, 2) + put(1, 0, LARGEST_COUNT - 2) + row_reads(2)
             + put(0, 0, LARGEST_COUNT - 1) + row_reads(1) + row_reads(2) + put(0, 1, LARGEST_COUNT) + row_reads(1)
             + row_reads(3) + row_reads(0)),
        case('row reads from places inside rows and behind them', 'put row:1[11;_] put 14:1 put 10:0[_;_] put 10:0 '
             'put end[_] put 10:0[_] put 10:0[_;_] put 10:0[_;_;_] put 10:0 put row:2[20;21]', ['2I'], rows,
             put(0, 1, 5) + row_reads(2) + put(1, 1, 6) + row_reads(0) + put(0, 2, 7) + row_reads(2) + put(1, FAR)
             + row_reads(0) + put(2, 0, 9) + row_reads(1) + put(2, 1) + row_reads(1) + put(3, 0, 1) + row_reads(2)
             + put(ALL64, 0) + row_reads(3) + put(2 ** 32, 0) + row_reads(0) + put(1, 0, 3) + row_reads(2)),
        case('row reads from places in a row of no entries', 'put 10:0 10:0[_] put row:0 row:0[_] end', ['0E'], 3,
             put(1, 1) + row_reads(0) + row_reads(1) + put(1, 0, 4) + row_reads(0) + row_reads(1) + row_reads(0)),
        case('row reads with other choices', 'put row:1[11;_] put 10:0[_] put 10:0[_;_] 10:0 put 10:0 put 20 '
             'row:1[21;_] put sought 10 put 10:0[_] put row:1[11]', ['1I', '1I'], rows,
             choose(1) + row_reads(2) + choose() + row_reads(1) + choose(0, 2) + row_reads(2) + row_reads(0)
             + choose(63) + row_reads(0) + choose(0, 1) + reads() + row_reads(2) + choose(0, 1) + seek(0) + reads()
             + choose(1) + row_reads(1) + choose(0, 1) + row_reads(1)),
        case('row reads that are lent less: nothing moves or is stored',
             '10:0[_;_] 10:0 row:2[10;11;_] 10:0[_] 20 10:0[_;_;_] row:1[21] 10:0[_] 10:0 end', ['2I'], rows,
             row_reads(2, of=first(7)) + row_reads(0, of=first(0)) + row_reads(3, of=first(8))
             + row_reads(1, of=first(7)) + reads() + row_reads(3, of=first(7)) + row_reads(1)
             + row_reads(1, of=first(7)) + row_reads(0, of=first(7)) + row_reads(0, of=first(8)), extra=bytes(5)),
        case('10 comes before 13 and 14', '10:0[_] 10:0 13:0[_] 13:0', forms, [p(4, 0) + b'\x01'],
             row_reads(1, of=first(11)) + row_reads(0, of=first(8)) + row_reads(1) + row_reads(0), heap=heap),
        case('row reads of another area',
             '7 row:1[4;_;_;_] row:3[17;18;5] sought 7 8 10:0[_;_;_;_] row:2[9;1;_;_] row:1[2]', forms, whole,
             reads() + row_reads(4, of=OTHER) + row_reads(3, of=OTHER) + seek(0) + reads(2) + row_reads(4, of=OTHER)
             + row_reads(4) + row_reads(1), heap=heap, other=less),
        case('row reads of another area with a 13: one entry', '7 14:1 row:1[4;_] sought 13:0[_;_;_] 13:0 '
             'row:4[7;8;9;1] row:1[5]', forms, whole, reads() + row_reads(0, of=OTHER) + row_reads(2, of=OTHER)
             + seek(0) + row_reads(3, of=OTHER) + reads(1, OTHER) + row_reads(4) + row_reads(1, of=OTHER), heap=heap,
             other=worse),
        case('row reads of another area, the heap off', '3,0 row:1[4;_] row:2[0,0;2] end', forms, whole,
             reads() + row_reads(2, of=OTHER) + row_reads(2) + row_reads(0), heap=heap, other=worse, follow=False),
        case('row reads of another area where the row is empty',
             '1 10:0[_;_] row:1[2;_] row:0 end[_] sought row:0[_] row:1[1]', ['1PB'], [p(2, 0), p(1, 0)],
             reads() + row_reads(2, of=OTHER) + row_reads(2) + row_reads(0, of=OTHER)
             + row_reads(1, of=OTHER) + seek(0) + row_reads(1, of=OTHER) + row_reads(1), heap=be(1, 1, 2),
             other=bytes(18)),
    ]


def empty_field_cases():
    """P and Q of count 0, which are fields of no bytes and no entries. At the end a count of 2, a bad form, in the
    header of a table that is sound with count 1."""
    made = []
    for form in ('0PE', '0QD'):
        for follow in (True, False):
            where = ', the heap %s' % ('on' if follow else 'off')
            for place, forms in (('first', [form, '1I']), ('last', ['1I', form])):
                made.append(case('`%s` %s%s' % (form, place, where),
                                 '10 20 end sought row:1[20] sought 14:1 row:1[10;_]', forms, [be(2, 10), be(2, 20)],
                                 reads(3) + seek(1) + row_reads(1) + seek(0) + row_reads(0) + row_reads(2),
                                 follow=follow))
            made += [
                case('`%s` between others%s' % (form, where), '10 11 20 21 end sought row:2[20;21] sought 14:2[_] '
                     'row:2[10;11;_]', ['1I', form, '1J'], [be(2, 10) + be(4, 11), be(2, 20) + be(4, 21)],
                     reads(5) + seek(1) + row_reads(2) + seek(0) + row_reads(1) + row_reads(3), follow=follow),
                case('`%s` alone%s' % (form, where), 'end end sought row:0[_] row:0 end[_;_] 12:3 sought end', [form],
                     3, reads(2) + seek(1) + row_reads(1) + row_reads(0) + row_reads(2) + seek(3) + seek(2) + reads(),
                     heap=b'abc', follow=follow),
            ]
    # the entries of a row are 4, 2 and 3; with the heap off 3 each
    among, heap = ['0PE', '1B', '1PB', '0QD', '0PX', '1B', '00PB(7)'], be(1, 7, 8, 9)
    rows = [b'\x01' + p(2, 0) + b'\x02', b'\x03' + p(0, 5) + b'\x04', b'\x05' + p(1, 2) + b'\x06']
    before, before_row = ['0PB', '1PB', '0QB', '1B'], [p(9, 0) + b'\x05']
    chosen, chosen_rows = ['1B', '0PE', '1PB', '0QM'], [bytes([n]) + p(9, n) for n in (1, 2, 3)]
    nothing = row_reads(0) + row_reads(1) + row_reads(2) + row_reads(0) + seek(1) + reads() + seek(0) + reads(2)
    elements = ['0P' + letter for letter in LETTERS] + ['0Q' + letter for letter in LETTERS]
    return made + [
        case('`0PE` alone, no rows', 'end 12:0 end[_] end', ['0PE'], 0,
             reads() + seek(0) + row_reads(1) + row_reads(0)),
        case('places in a table of `0QD`',
             'put 10:0 10:0[_] 10:0 put row:0 row:0[_] end[_] put row:0 put end put 10:0', ['0QD'], 3,
             put(1, 1) + reads() + row_reads(1) + seek(0) + put(1, 0, 4) + row_reads(0) + row_reads(1) + row_reads(1)
             + put(0, 0, LARGEST_COUNT) + row_reads(0) + put(3, 0) + reads() + put(3, 1) + reads()),
        case('100,000 rows of `0PK` and `0E`', 'end sought row:0 row:0[_] end sought end', ['0PK', '0E'], 100000,
             reads() + seek(99998) + row_reads(0) + row_reads(1) + row_reads(0) + seek(0) + reads()),
        case('`0PE`, `0QD` and `0E` side by side, the heap off', 'row:0 row:0 end sought row:0[_] 12:2',
             ['0PE', '0QD', '0E'], 2, row_reads(0, 2) + reads() + seek(1) + row_reads(1) + seek(2), follow=False),
        case('P and Q of count 0 with every element letter, then a byte', '1 2 end sought row:1[2]', elements + ['1B'],
             [b'\x01', b'\x02'], reads(3) + seek(1) + row_reads(1)),
        case('no byte is needed for `0PE`, nor lent', 'row:0 row:0[_] end', ['0PE'], 2,
             row_reads(0, of=first(0)) + row_reads(1, of=first(0)) + reads(1, first(0)), extra=b'abc',
             opening=first(0)),
        case('a byte is needed beside `0PE`', '10:0 1 10:0 row:1[2] end', ['1B', '0PE'], [b'\x01', b'\x02'],
             reads(1, first(1)) + reads() + row_reads(0, of=first(1)) + row_reads(1) + reads()),
        case('empty descriptors among others, heap on', '1 7 8 2 3 4 5 9 6 end', among, rows, reads(10), heap=heap),
        case('empty descriptors among others, heap off', '1 2,0 2 3 0,5 4 5 1,2 6 end', among, rows, reads(10),
             heap=heap, follow=False),
        case('row reads of these, heap on', 'row:4[1;7;8;2] 14:2[_] 14:2 row:2[3;4] row:3[5;9;6;_] end[_] sought 1 7 '
             '14:2[_] row:2[8;2]', among, rows,
             row_reads(4) + row_reads(1) + row_reads(0) + row_reads(2) + row_reads(4) + row_reads(1) + seek(0)
             + reads(2) + row_reads(1) + row_reads(2), heap=heap),
        case('row reads of these, heap off', 'row:3[1;2,0;2] 14:3[_;_] row:3[3;0,5;4] 5 row:2[1,2;6] end', among, rows,
             row_reads(3) + row_reads(2) + row_reads(3) + reads() + row_reads(2) + row_reads(0), heap=heap,
             follow=False),
        case('places among these, heap on', 'put row:2[8;2] put 2 3 row:1[4] put 10:0[_] put 10:0 put 14:1 row:1[6]',
             among, rows, put(0, 2) + row_reads(2) + put(0, 3) + reads(2) + row_reads(1) + put(0, 4) + row_reads(1)
             + put(1, 2) + reads() + put(2, 2, 7) + row_reads(0) + row_reads(1), heap=heap),
        case('places among these, heap off', 'put 4 put 10:0 put row:2[1,2;6]', among, rows,
             put(1, 2) + reads() + put(0, 3) + row_reads(0) + put(2, 1) + row_reads(2), heap=heap, follow=False),
        case('a 13 behind an empty descriptor, heap on', '13:1 13:1 13:1[_] 13:1 put 5 end', before, before_row,
             reads(2) + row_reads(1) + row_reads(0) + put(0, 1) + reads(2), heap=heap),
        case('a 13 behind an empty descriptor, heap off', '9,0 5 end', before, before_row, reads(3), heap=heap,
             follow=False),
        case('a 13 behind an empty descriptor, its column not chosen', '5 end', before, before_row, reads(2),
             heap=heap, indexes=[3, 2, 0]),
        case('a 13 between empty descriptors, behind an array', '7 13:2 13:2[_;_] sought row:3[7;8;9] end',
             ['1PB', '0PB', '1QB', '0QB'], [p(1, 0) + q(4, 0), p(0, 0) + q(3, 0)],
             reads(2) + row_reads(2) + seek(1) + row_reads(3) + reads(), heap=heap),
        case('a choice of an empty descriptor alone, heap on',
             'row:0 row:0[_] row:0[_;_] end sought end sought end end', chosen, chosen_rows, nothing, heap=heap,
             indexes=[1]),
        case('a choice of empty descriptors, repeated, heap off',
             'row:0 row:0[_] row:0[_;_] end sought end sought end end', chosen, chosen_rows, nothing, heap=heap,
             indexes=[3, 1, 1, 3, 9], follow=False),
        case('a choice that leaves the empty descriptors out', '1 9,1 2 9,2 3 9,3 end', chosen, chosen_rows, reads(7),
             heap=heap, indexes=[0, 2], follow=False),
        case('a choice of empty descriptors and a byte, repeated', '1 2 3 end sought row:1[2] sought 14:1', chosen,
             chosen_rows, reads(4) + seek(1) + row_reads(1) + seek(2) + row_reads(0), heap=heap,
             indexes=[3, 0, 1, 0, 1]),
        case('no column left beside `0PE`', '11:0', ['0PE'], 1, reads(), indexes=[1, 64]),
        case('other choices: empty descriptors, with a byte, without', 'put end sought put 1 put row:0 put 3 end',
             chosen, chosen_rows, choose(1) + reads() + seek(0) + choose(0, 1, 3) + reads() + choose(1, 3)
             + row_reads(0) + choose(0, 1) + reads(2), heap=heap),
        case('row reads of another area, empty descriptors in both', '7 row:1[4;_;_;_] row:3[17;18;5] sought 7 8 '
             '10:0[_;_;_;_] row:2[9;1;_;_] row:1[2]', before, [p(3, 0) + b'\x01', p(0, 0) + b'\x02'],
             reads() + row_reads(4, of=OTHER) + row_reads(3, of=OTHER) + seek(0) + reads(2) + row_reads(4, of=OTHER)
             + row_reads(4) + row_reads(1), heap=heap,
             other=p(1, 2) + b'\x04' + p(2, 0) + b'\x05' + be(1, 17, 18, 19)),
        case('`2PE` between others: the entry\'s 8', '', ['1I', '1PE', '1J'], [be(2, 10) + p(0, 0) + be(4, 11)],
             reads(), written=['1I', '2PE', '1J']),
        case('`2QD` last, behind `0PE`, the heap off: the entry\'s 8', '', ['1I', '0PE', '1QD'], [be(2, 10) + q(0, 0)],
             reads(), written=['1I', '0PE', '2QD'], follow=False),
    ]


def counted_form_cases():
    """`0PI`, `3PI`, `8388608QI` in the bytes of one descriptor each: the second is a bad form."""
    forms, written = ['PI', '00001PI(9)', 'QI'], ['0PI', '3PI', '8388608QI']
    row, heap = [p(1, 0) + p(1, 2) + q(2, 4)], be(1, 2, 1, 4, 3, 6, 5, 8, 7)
    return [
        case('`0PI`, `3PI`, `8388608QI`: the entry\'s 8', '', forms, row, reads(5), heap=heap, written=written),
        case('`0PI`, `3PI`, `8388608QI`, the heap off: the entry\'s 8', '', forms, row, reads(4), heap=heap,
             written=written, follow=False),
    ]


def doubles(*numbers):
    """Doubles as they are printed, by their bits; a NaN has those of 7FF8000000000000."""
    return ' '.join('%d' % (NAN if of != of else double_bits(of)) for of in numbers)


# whole numbers as they are stored, and as they are with these zeros and the factor 1
ZEROS = {'TZERO1': '-128', 'TZERO2': '32768', 'TZERO3': '2147483648', 'TZERO4': '9223372036854775808'}
WHOLE_FORMS = ['3B', '3I', '3J', '3K']
WHOLE_ROW = (be(1, 0, 128, 255) + be(2, -2 ** 15, 0, 2 ** 15 - 1) + be(4, -2 ** 31, -1, 2 ** 31 - 1)
             + be(8, -2 ** 63, -1, 2 ** 63 - 1))
STORED = '0 128 255 -32768 0 32767 -2147483648 -1 2147483647 -9223372036854775808 -1 9223372036854775807'
SHIFTED = '-128 0 127 0 32768 65535 0 2147483647 4294967295 0 9223372036854775807 18446744073709551615'


def scaled_number_cases():
    """One item after the other in the scaled reading."""
    forms, row = WHOLE_FORMS, WHOLE_ROW
    infinity, nan = float('inf'), float('nan')
    odd = doubles(infinity, -infinity, 0.0, *[nan] * 8)

    def one(why, said, forms, row, **keywords):
        return case('scaled: ' + why, said, forms, [row], scaling(reads(len(said.split()))), keywords=keywords)

    return [
        one('exact whole numbers, and the end', SHIFTED + ' end', forms, row, **ZEROS),
        one('the factor given as 1', SHIFTED, forms, row, TSCAL1='1.0', TSCAL2='+1', TSCAL3='10E-1', TSCAL4='.1D1',
            **ZEROS),
        one('neither keyword', doubles(0.0, 128.0, 255.0, -32768.0, 0.0, 32767.0, -2.0 ** 31, -1.0, 2.0 ** 31 - 1,
                                       -2.0 ** 63, -1.0, 2.0 ** 63), forms, row),
        one('the factor -1 and those zeros', doubles(
            -128.0, -256.0, -383.0, 65536.0, 32768.0, 1.0, 2.0 ** 32, 2.0 ** 31 + 1, 1.0, 2.0 ** 64, 2.0 ** 63, 0.0),
            forms, row, TSCAL1='-1', TSCAL2='-1', TSCAL3='-1', TSCAL4='-1', **ZEROS),
        one('the zeros of other types', doubles(
            32768.0, 32896.0, 33023.0, -32896.0, -128.0, 32639.0, -2.0 ** 31 + 32768, 32767.0, 2.0 ** 31 + 32767,
            -2.0 ** 63 + 2.0 ** 31, 2.0 ** 31 - 1, 2.0 ** 63 + 2.0 ** 31), forms, row, TZERO1='32768', TZERO2='-128',
            TZERO3='32768', TZERO4='2147483648'),
        one('those zeros of E and D', doubles(32769.5, -126.5), ['1E', '1D'], be(4, 0x3FC00000) + be(8, 0x3FF8 << 48),
            TZERO1='32768', TZERO2='-128'),
        one('single floats with neither: infinities, -0.0, NaNs', odd, ['11E'], be(4, *FLOATS[:11])),
        one('double floats with neither', odd, ['11D'], be(8, *DOUBLES[:11])),
        one('the factor 0 makes NaN of infinities', doubles(nan, nan, 0.0, 0.0), ['4E'],
            be(4, FLOATS[0], FLOATS[1], FLOATS[2], 0x3F800000), TSCAL1='0'),
        one('past the largest double', doubles(infinity, -infinity, 1e22), ['3D'],
            be(8, DOUBLES[14], DOUBLES[14] + 2 ** 63, 0x3FF << 52), TSCAL1='1E22'),
        one('whole numbers between doubles go to the even one', doubles(2.0 ** 53, 2.0 ** 53 + 4, 2.0 ** 63), ['3K'],
            be(8, 2 ** 53 + 1, 2 ** 53 + 3, 2 ** 63 - 1), TSCAL1='1'),
        # 0.1 as a double times 3 lies above 0.3 as a double by 2 to the -55th, and by twice that if it is rounded
        one('the product is rounded before the sum', doubles(2.0 ** -54), ['1B'], b'\3', TSCAL1='0.1', TZERO1='-0.3'),
    ]


def scaled_cases():
    """The scaled reading, and refusal 16."""
    # the entries of a row are 7, 3 and 3, of which the last of row 2 is a 13; with the heap off 6 each
    mixed, heap = ['1PI', '1B', '1QE', '2A', '1PX'], be(2, 5, -5) + be(4, 0x3FC00000)
    rows = [p(2, 0) + b'\x07' + q(1, 4) + b'ab' + p(8, 0), p(0, 9) + b'\x08' + q(0, 0) + b'cd' + p(0, 0),
            p(1, 2) + b'\x09' + q(2, 4) + b'ef' + p(0, 0)]
    ten, less, half, seven, eight, nine = doubles(10.0, -10.0, -0.5, 7.5, 8.5, 9.5).split()

    def arrays_of(why, said, steps, **more):
        return case('scaled: ' + why, said, mixed, rows, steps, heap=heap, keywords={
            'TSCAL1': '2', 'TZERO2': '0.5', 'TSCAL3': '-1', 'TZERO3': '1'}, **more)

    return scaled_number_cases() + [
        case('scaled: plain and scaled reads of one row',
             'row:12[%s] sought row:12[%s] sought -128 0 255 -32768 row:8[%s]' % (
                 SHIFTED.replace(' ', ';'), STORED.replace(' ', ';'), ';'.join(SHIFTED.split()[4:])), WHOLE_FORMS,
             [WHOLE_ROW], scaling(row_reads(12)) + seek(0) + row_reads(12) + seek(0) + scaling(reads(2)) + reads(2)
             + scaling(row_reads(8)), keywords=ZEROS),
        arrays_of('cells of arrays and of other types', ' '.join([
            ten, less, seven, half, '97 98 0', eight, '99 100', less, nine, '13:2 13:2']), scaling(reads(14))),
        arrays_of('descriptors that are not followed', ' '.join([
            '2,0', seven, '1,4 97 98 8,0 0,9', eight, '0,0 99 row:2[100;0,0;_] row:6[1,2;%s;2,4;101;102;0,0]' % nine]),
            scaling(reads(10) + row_reads(3) + row_reads(6)), follow=False),
        arrays_of('the rest of a row, 14 and 13', '14:7[_] 14:7 5 14:6[_;_;_] row:6[%s;%s;%s;97;98;0;_] '
                  'row:3[%s;99;100;_] 13:2[_;_;_;_;_] 13:2 13:2[_] %s %s 13:2 13:2' % (
                      less, seven, half, eight, less, nine),
                  scaling(row_reads(1) + row_reads(0)) + reads() + row_reads(3) + scaling(row_reads(7) + row_reads(4))
                  + scaling(row_reads(5) + row_reads(0)) + row_reads(1) + scaling(reads(4))),
        arrays_of('made places, choices and lent areas', 'put %s %s %s row:3[97;98;0;_] put 10:0 10:0[_;_] put put '
                  'row:3[%s;97;98;_] %s 99 10:0 10:0[_]' % (less, seven, half, seven, eight),
                  put(0, 1, LARGEST_COUNT - 1) + scaling(reads(3) + row_reads(4)) + put(9, 0)
                  + scaling(reads() + row_reads(2)) + choose(1, 3) + put(0, 0) + scaling(row_reads(4) + reads(2))
                  + scaling(reads(1, first(9)) + row_reads(1, of=first(9)))),
        case('16: a zero of 16 digits', '', ['1I'], [be(2, 1)], reads(), keywords={'TZERO1': '1234567890.123456'}),
        case('16: characters', '', ['1I', '1A'], [be(2, 1) + b'a'], reads(), keywords={'TSCAL2': '1'}),
    ]


def nulls_of(*values):
    return {'TNULL%d' % n: value for n, value in enumerate(values, 1)}


LOWEST = nulls_of('0', '-32768', '-2147483648', '-9223372036854775808')
# of each of these columns the unsigned number, and numbers that differ from a stored one by a power of 2
NEVER = [
    nulls_of('256', '32768', '2147483648', '9223372036854775808'),
    nulls_of('-128', '-32769', '-2147483649', '-9223372036854775809'),
    nulls_of('384', '65535', '4294967295', '9999999999999999999'),
    nulls_of('-1', '65536', '4294967296', '-9999999999999999999'),
    nulls_of('-256', '-65536', '-4294967297', '+9223372036854775808'),
]


def null_number_cases():
    """One item after the other in both readings, the numbers at the ends of their ranges as nulls."""
    def one(why, said, nulls, **more):
        return case('null: ' + why, said, WHOLE_FORMS, [WHOLE_ROW], reads(12), keywords={**nulls, **more})

    def one_scaled(why, said, nulls, **more):
        return case('null, scaled: ' + why, said, WHOLE_FORMS, [WHOLE_ROW], scaling(reads(12)),
                    keywords={**nulls, **more})

    low = 'U 128 255 U 0 32767 U -1 2147483647 U -1 9223372036854775807'
    high = nulls_of('255', '+32767', '0000000002147483647', '9223372036854775807')
    middle = nulls_of('128', '-0', '-1', '-0000000000000000001')
    rest = doubles(128.0, 255.0), doubles(0.0, 32767.0), doubles(-1.0, 2.0 ** 31 - 1), doubles(-1.0, 2.0 ** 63)
    return [
        one('the lowest numbers', low, LOWEST),
        one('the highest numbers', '0 128 U -32768 0 U -2147483648 -1 U -9223372036854775808 -1 U', high),
        one('numbers between', '0 U 255 -32768 U 32767 -2147483648 U 2147483647 -9223372036854775808 U '
            '9223372036854775807', middle),
        *[one('numbers that are none of the column, %d' % k, STORED, nulls) for k, nulls in enumerate(NEVER)],
        one('factors and zeros are no matter', low, LOWEST, TSCAL1='2', TSCAL3='1E22', **ZEROS),
        one_scaled('what the scaled values are', SHIFTED, nulls_of('127', '65535', '4294967295', '9223372036854775808'),
                   **ZEROS),
        one_scaled('before the exact whole numbers', 'U 0 127 U 32768 65535 U 2147483647 4294967295 U '
                   '9223372036854775807 18446744073709551615', LOWEST, **ZEROS),
        one_scaled('numbers that are none of the column', SHIFTED, NEVER[2], **ZEROS),
        one_scaled('no scaling', ' '.join('U ' + two for two in rest), LOWEST),
        one_scaled('the factor 0', ' '.join(['U 0 0'] * 4), LOWEST, TSCAL1='0', TSCAL2='0', TSCAL3='0', TSCAL4='0'),
    ]


def null_array_cases():
    """Arrays of each type, followed or not. The nulls of the first four are numbers of their descriptors."""
    forms = [kind + letter for kind in ('1P', '1Q') for letter in INTEGERS]
    row = [descriptor(3, at) for descriptor in (p, q) for at in (0, 3, 9, 21)]
    zeros = {'TZERO%d' % (n + 4): ZEROS['TZERO%d' % n] for n in range(1, 5)}
    plain = doubles(*[float(number) for number in STORED.split()])

    def one(why, said, steps, **more):
        nulls = nulls_of('3', '3', '9', '21', '0', '-32768', '2147483647', '-1')
        return case('null: ' + why, said, forms, [row], steps, heap=WHOLE_ROW, keywords={**nulls, **zeros}, **more)

    return [
        one('arrays of each type', STORED + ' U 128 255 U 0 32767 -2147483648 -1 U -9223372036854775808 U '
            '9223372036854775807', reads(24)),
        one('descriptors that are not followed', '3,0 3,3 3,9 3,21 3,0 3,3 3,9 3,21 end', reads(9), follow=False),
        one('arrays of each type, scaled', plain + ' U 0 127 U 32768 65535 0 2147483647 U 0 U 18446744073709551615',
            scaling(reads(24))),
    ]


def null_cases():
    """Missing values, and refusal 17."""
    # the entries of a row are 10, 6 and 4, of which the last of row 2 is a 13
    forms = ['1PI', '1B', '1QE', '2B', '1L', '1PX', '1I']
    rows = [p(3, 0) + b'\x07' + q(1, 6) + b'\x07\x08\0' + p(8, 0) + be(2, 7),
            p(1, 2) + b'\x08' + q(0, 0) + b'\x09\x07\x07' + p(0, 0) + be(2, 8),
            p(2, 0) + b'\x07' + q(9, 4) + b'\x07\x07T' + p(0, 0) + be(2, 9)]
    heap = be(2, 7, 8, -7) + be(4, 0x3FC00000)

    def one(why, said, steps, **more):
        return case('null: ' + why, said, forms, rows, steps, heap=heap, keywords={
            'TNULL1': '-7', 'TNULL2': '7', 'TNULL4': '8', 'TNULL7': '9', 'TSCAL7': '2'}, **more)

    scaled_row = doubles(7.0, 8.0).split() + ['U', 'U'] + doubles(1.5, 7.0).split() + ['U', '2', '0', doubles(14.0)]
    return null_number_cases() + null_array_cases() + [
        one('rows and cells', 'row:10[7;8;U;U;1069547520;7;U;2;0;7] row:6[8;8;9;7;3,7;8] 7 8 U 13:2 13:2',
            row_reads(10) + row_reads(6) + reads(5)),
        one('the rest of a row, and 14', '7 8 U 14:7[_;_] row:7[U;1069547520;7;U;2;0;7;_] 8 8 row:4[9;7;3,7;8]',
            reads(3) + row_reads(2) + row_reads(8) + reads(2) + row_reads(4)),
        one('a scaled row beside a plain one', 'row:10[%s] sought row:10[7;8;U;U;1069547520;7;U;2;0;7]' % ';'.join(
            scaled_row), scaling(row_reads(10)) + seek(0) + row_reads(10)),
        one('a choice, the heap off', '3,0 7 U 7 1,2 9 7 8 2,0 7 7 U end', reads(13), indexes=[0, 3, 6], follow=False),
        one('each column has its own', 'U 7 U 8 9 7 U 7 7 end', reads(10), indexes=[3, 1]),
        case('17: 20 digits', '', ['1I'], [be(2, 1)], reads(), keywords={'TNULL1': '00000000000000000001'}),
        case('17: a point', '', ['1I'], [be(2, 1)], reads(), keywords={'TNULL1': '1.'}),
        case('17: characters', '', ['1I', '1A'], [be(2, 1) + b'a'], reads(), keywords={'TNULL2': '97'}),
        case('17: an array of E', '', ['1PE'], [p(0, 0)], reads(), keywords={'TSCAL1': '1', 'TNULL1': '0'}),
    ]


def named():
    """All of them."""
    return (value_cases() + heap_cases() + end_cases() + row_cases() + choice_cases() + seek_cases() + area_cases()
            + place_cases() + row_read_cases() + row_heap_cases() + row_place_cases() + empty_field_cases()
            + counted_form_cases() + scaled_cases() + null_cases())


# ---- random cases ----

COUNTS = ['', '', '0', '0', '1', '1', '1', '2', '3', '5', '8', '9', '17']
ONE_OR_NONE = ['', '', '', '1', '1', '1', '1', '001', '0', '0', '00']
ABOVE_ONE = ['2', '2', '3', '8', '9', '16', '002', '8388607', '8388608']
EDGES = {
    1: [0, 1, 70, 84, 84, 127, 128, 255],
    2: [0, 1, 2 ** 15 - 1, 2 ** 15, 2 ** 16 - 1, 256],
    4: FLOATS + [0, 2 ** 31 - 1, 2 ** 31, FAR, 256],
    8: DOUBLES + [0, 2 ** 63 - 1, 2 ** 63, ALL64, 256, 2 ** 32],
}


def random_item(rng, letter, few=False):
    """The bytes of an item: near an edge, or any; or one of few, so that many are the same."""
    parts, width = (2, item_width(letter) // 2) if letter in 'CM' else (1, item_width(letter))
    if few:
        return b''.join(be(width, rng.choice([0, 256 ** width // 2, -1])) for _ in range(parts))
    return b''.join(be(width, rng.choice([rng.choice(EDGES[width]), rng.randrange(256 ** width)]))
                    for _ in range(parts))


def random_array(rng, element, room):
    """Count and offset of an array that stays within so many bytes."""
    width = item_width(element)
    most = min(room // width, rng.choice([1, 2, 3, 5, 40]))
    items = rng.randrange(most + 1)
    count = max(0, items * 8 - rng.choice([0, 0, 1, 7])) if element == 'X' else items
    return count, rng.choice([room - items * width, rng.randrange(room - items * width + 1)])


def random_number(rng, top):
    base = rng.choice([top, top // 2, top // 4, top // 8, top // 16, 2 ** 32, 2 ** 31, 1, 8])
    return (base + rng.choice([-17, -16, -8, -2, -1, 0, 1, 7, rng.randrange(64)])) % top


def random_descriptor(rng, form, room, clean):
    """A descriptor: empty, sound, at the heap's end, past it, or far out."""
    top = 2 ** 32 if form[0] == 'P' else 2 ** 64
    element = form[1]
    count, offset = random_array(rng, element, room)
    kind = rng.randrange(4 if clean else 10)
    if kind == 0:
        count, offset = 0, rng.choice([0, offset, room, room + 1, top - 1, random_number(rng, top)])
    elif kind == 4:
        size = item_count(element, count) * item_width(element)
        offset = room - size + rng.choice([0, 1, 1, 2])
    elif kind == 5:
        count += rng.choice([1, 1, 2, 8])
    elif kind == 6:
        count = random_number(rng, top)
    elif kind == 7:
        offset = random_number(rng, top)
    elif kind == 8:
        count, offset = random_number(rng, top), random_number(rng, top)
    return (p if form[0] == 'P' else q)(count % top, offset % top)


def random_form(rng, style):
    letter = rng.choice(('PQ' if style == 'arrays' else 'LXBIJKAEDCMPQPQ'))
    rest = rng.choice(['', '', '', '(9)', ' x'])
    if letter in 'PQ':
        digits = rng.choice(ONE_OR_NONE + ['0'] * 6 if style == 'empty' else ONE_OR_NONE)
        return digits + letter + rng.choice(LETTERS) + rest
    digits = rng.choice(['0'] if style == 'empty' else COUNTS)
    if letter in 'LBA' and rng.randrange(25) == 0:
        digits = rng.choice(['25', '26', '100', '500', '511', '512', '513', '600'])
    return digits + letter + rest


FACTORS = ['1', '1.0', '1', '2', '-1', '0.5', '0.1', '0.3', '-.7E-5', '3', '1E22', '1D-22', '0', '123456789.012345']
ANY_ZEROS = ['0', '-0', '1', '-0.5', '0.1', '32768', '-32768', '-128', '2147483648', '9223372036854775808',
             '-9223372036854775808', '1E22', '-2.5D-3', '999999999999999']
NO_NUMBERS = ['1e5', '1E23', '.', "'1'", '1234567890123456', '1 2', '']


def random_scales(rng, forms):
    """TSCALn and TZEROn of columns, most of those that may have them, and now and then of another or a bad one."""
    made = {}
    for n, form in enumerate(forms, 1):
        letter = form_of(text(form))[0][-1]
        if rng.randrange(3) and (letter in NUMBERS or rng.randrange(90) == 0):
            zero = '%d' % SHIFTS[letter][0] if letter in SHIFTS and rng.randrange(2) else rng.choice(ANY_ZEROS)
            of = {'TSCAL%d' % n: rng.choice(FACTORS), 'TZERO%d' % n: zero}
            of = {name: rng.choice(NO_NUMBERS) if rng.randrange(150) == 0 else value for name, value in of.items()}
            keys = rng.choice([['TSCAL'], ['TZERO'], ['TZERO'], ['TSCAL', 'TZERO'], ['TZERO', 'TSCAL']])
            made.update({key + '%d' % n: of[key + '%d' % n] for key in keys})
    return made


NO_INTEGERS = ['1.0', '1E3', '', "'1'", '1 2', '00000000000000000007', '99999999999999999999']


def null_number(rng, letter, values):
    """A number as a null: one that is stored, one that differs from it by a power of 2, or one near an end."""
    power = 2 ** (8 * item_width(letter))
    ends = [0, power // 2, power]
    number = rng.choice(values or ends) if rng.randrange(5) else rng.choice(ends) + rng.randrange(-2, 2)
    number += rng.choice([0] * 9 + [power, -power, 1, -1])
    if abs(number) >= 10 ** 19:
        number %= 10 ** 19
    digits = '%d' % abs(number)
    zeros = rng.choice([0, 0, 0, 1, 19 - len(digits)])
    return ('-' if number < 0 else rng.choice(['', '', '+'])) + digits.zfill(min(19, len(digits) + zeros))


def random_nulls(rng, forms, stored):
    """TNULLn of columns, most of those that may have it, and now and then of another or a bad one. `stored` are the
    numbers of each column."""
    made = {}
    for n, form in enumerate(forms, 1):
        letter = form_of(text(form))[0][-1]
        if letter in INTEGERS and rng.randrange(3):
            number = null_number(rng, letter, stored[n - 1])
            made['TNULL%d' % n] = rng.choice(NO_INTEGERS) if rng.randrange(150) == 0 else number
        elif rng.randrange(150) == 0:
            made['TNULL%d' % n] = '0'
    return made


def stored_numbers(layout, area):
    """The numbers of each column whose items may be missing values."""
    made = [[] for _ in layout.columns]
    for row in range(layout.rows):
        for entry in row_entries(layout, area, range(len(made)), True, row):
            if not isinstance(entry, Bad) and entry.kind in INTEGERS:
                made[entry.column] += entry.value
    return made


def above_one(rng, forms):
    """The forms with more than one descriptor in a field of P or Q, if there is one."""
    places = [c for c, form in enumerate(forms) if form_of(text(form))[0][0] in DESCRIPTOR]
    if not places:
        return None
    c = rng.choice(places)
    return forms[:c] + [rng.choice(ABOVE_ONE) + forms[c].lstrip('01')] + forms[c + 1:]


def random_field(rng, of, room, clean, sparse, few):
    form, count, size = form_of(text(of))
    if size == 0:
        return b''
    if form[0] in DESCRIPTOR:
        if rng.random() < sparse:
            return (p if form[0] == 'P' else q)(0, rng.randrange(2 ** 32))
        return random_descriptor(rng, form, room, clean)
    return b''.join(random_item(rng, form, few) for _ in range(item_count(form, count)))


def random_rows(rng, forms, rows, room, clean, few):
    sparse = rng.choice([0, 0, 0.3, 0.9])
    return b''.join(random_field(rng, form, room, clean, sparse, few) for _ in range(rows) for form in forms)


def random_indexes(rng, columns):
    near = list(range(columns)) * 12 + [columns, columns + 1, 63, 64, 65, 2 ** 32, 2 ** 63, ALL64]
    size = rng.choice([1, 1, 2, 2, 3, 4, 8, 70] + [0] * (rng.randrange(5) == 0))
    return [rng.choice(near) for _ in range(size)]


def random_lent(rng, area, other):
    pick = rng.randrange(12)
    if pick == 0:
        return Lent(False, max(0, len(area) + rng.choice([-60, -2, -1, 0, 1])))
    if pick < 4 and other:
        return Lent(True, rng.choice([FAR, FAR, FAR, len(other) - 1]))
    return WHOLE


def random_row(rng, rows):
    """A row to seek: mostly one that there is."""
    near = [rows, rows + 1, 2 ** 32 + rng.randrange(rows + 1), ALL64]
    return rng.choice(list(range(rows)) * 8 + near)


def random_size(rng, sizes):
    """How long the list of a row read is: about as long as a row, or any."""
    near = rng.choice(sizes or [0]) + rng.choice([-2, -1, -1, 0, 0, 0, 1, 2, 7])
    return min(MOST_CELLS, max(0, rng.choice([near] * 9 + [0, 1, 24, 25, 511, MOST_CELLS, rng.randrange(40)])))


def random_steps(rng, rows, columns, sizes, area, other):
    made, total = [], sum(sizes)
    for _ in range(rng.choice([1, 2, 4, 8, 12])):
        of = random_lent(rng, area, other)
        forge = rng.randrange(40)
        if forge == 0:
            made += put(random_row(rng, rows), rng.choice([0, 1, 2, 3, rng.randrange(total + 2), FAR]),
                        rng.choice([0, rng.randrange(100), LARGEST_COUNT - rng.randrange(4)]))
        elif forge == 1:
            top = min(64, columns + rng.choice([0, 0, 0, 1])) or 1
            made += choose(*[rng.randrange(top) for _ in range(rng.randrange(4))])
        elif rng.randrange(3) == 0:
            made += reads(rng.choice([1, 1, 1, 2, 3, 10]), of)
        elif rng.randrange(3):
            made += row_reads(random_size(rng, sizes), rng.choice([1, 1, 1, 2, 3]), of)
        else:
            made += seek(random_row(rng, rows), of)
    whole = reads(min(255, max(1, total + rng.choice([-1, 0, 1, 2]))))
    by_row = row_reads(min(MOST_CELLS, max(sizes or [0]) + rng.choice([0, 0, 1, 5])), rows + rng.choice([1, 1, 2]))
    again = seek(random_row(rng, rows))
    made, whole, by_row = (scaling(of) if rng.randrange(3) == 0 else of for of in (made, whole, by_row))
    made = [scaling([step])[0] if rng.randrange(3) == 0 else step for step in made]
    return flagged(rng, rng.choice([made, made, made, made + seek(0) + whole, whole + again + made,
                                    made + seek(0) + by_row, by_row + again + made]))


def random_case(rng):
    style = rng.choice(['any', 'any', 'any', 'arrays', 'arrays', 'empty'])
    wide = rng.randrange(60) == 0
    columns = rng.choice([63, 64]) if wide else rng.choice([rng.randrange(2), 1, 1, 2, 2, 3, 3, 4, 5, 7])
    forms = [random_form(rng, style) for _ in range(columns)]
    rows = rng.choice([0, 1, 2, 3]) if wide else rng.choice([0, 1, 1, 2, 2, 3, 4, 5, 9])
    pcount = rng.choice([0, 0, 1, 4, 16, 17, 40, 120])
    gap = rng.choice([None, None, 0, rng.randrange(pcount + 1), pcount])
    clean = rng.randrange(3) != 0
    room = pcount - (gap or 0)
    few = rng.randrange(3) == 0
    heap = b''.join(random_item(rng, rng.choice('BIJK'), few) for _ in range(pcount))[:pcount]
    area = random_rows(rng, forms, rows, room, clean, few) + heap
    other = b''
    if rng.randrange(3) == 0:
        other = random_rows(rng, forms, rows, room, clean, few) + heap[::-1] + bytes(rng.choice([0, 0, 1, 5]))
    keywords = {} if wide or rng.randrange(3) == 0 else random_scales(rng, forms)
    if rng.randrange(2):
        stored = stored_numbers(layout_of(header_of(forms, rows, pcount, gap), len(area)), area)
        keywords.update(list(random_nulls(rng, forms, stored).items())[:30])
    given = rng.sample(list(keywords.items()), len(keywords))
    header = header_of(forms, rows, pcount, gap, above_one(rng, forms) if rng.randrange(30) == 0 else None, given)
    area += bytes(rng.choice([0, 0, 0, 1, 20]))
    if rng.randrange(40) == 0:
        area = area[:max(0, len(area) - rng.choice([1, 2, 21]))]
    indexes = None if rng.randrange(2) else random_indexes(rng, columns)
    follow = rng.randrange(4) != 0
    opening = random_lent(rng, area, other) if rng.randrange(8) == 0 else WHOLE
    sizes = []
    try:
        layout = layout_of(header, len(area))
        choice = choice_of(layout, indexes)
        sizes = [len(row_entries(layout, area, choice, follow, row)) for row in range(rows)]
    except Refused:
        pass
    steps = random_steps(rng, rows, columns, sizes, area, other)
    return Case('random', None, header, area, other, indexes, follow, opening, steps)


def random_cases(seed, room):
    """Random cases as long as there is room for one of 4,096 bytes; a longer one that has no room is left out."""
    rng = random.Random(seed)
    made = []
    while room >= 4096:
        one = random_case(rng)
        size = len(packed(one))
        if size <= room:
            made.append(one)
            room -= size
    return made


# ---- the two files ----


def sized(of):
    return struct.pack('>I', len(of)) + of


def packed_lent(one, of):
    """A place and a length in the two areas, which stand one behind the other."""
    return struct.pack('>II', len(one.area) if of.other else 0, len(lent(one, of)))


def packed_settings(one):
    made = bytes([len(one.header) // BLOCK, one.indexes is not None, one.heap])
    return made + packed_lent(one, WHOLE) + packed_lent(one, one.opening)


def packed_header(header):
    """The first bytes of each record; the others are spaces."""
    assert len(header) % BLOCK == 0 and len(header) <= MOST_HEADER
    records = [header[at:at + RECORD] for at in range(0, len(header), RECORD)]
    assert all(card[KEPT:].strip(b' ') == b'' for card in records)
    return b''.join(card[:KEPT] for card in records).rstrip(b' ')


def packed_step(one, step):
    assert 0 < step.times < 256
    assert step.kind != ROW or step.row <= MOST_CELLS
    made = struct.pack('>BBQ', step.kind + 64 * step.scaled + 128 * step.over, step.times, step.row)
    return made + (struct.pack('>II', *step.lent) if step.kind == PUT else packed_lent(one, step.lent))


def packed(one):
    indexes = one.indexes or []
    assert len(indexes) <= MOST_INDEXES
    blocks = [
        packed_settings(one), packed_header(one.header), one.area + one.other,
        b''.join(struct.pack('>Q', index) for index in indexes), b''.join(packed_step(one, step) for step in one.steps),
    ]
    return sized(b''.join(sized(block) for block in blocks))


def expected(cases):
    lines = []
    for k, one in enumerate(cases):
        lines.append('case %d' % k)
        lines += said_of(one)
    return ''.join(line + '\n' for line in lines)


def runs_of(cases):
    """How often each kind of step is done, by value and over a lent cursor."""
    runs = collections.Counter()
    for one in cases:
        if 'opened' in said_of(one):
            for step in one.steps:
                runs[step.kind, step.scaled, step.over] += step.times
    names = {(READ, False): 'cell reads', (READ, True): 'scaled ones', (SEEK, False): 'seeks',
             (ROW, False): 'row reads', (ROW, True): 'scaled ones'}
    return ', '.join('%s %d + %d lent' % (names[of], runs[of + (False,)], runs[of + (True,)]) for of in names)


def tell(cases, size, said):
    """The counts, to standard error."""
    words = collections.Counter(' '.join(line.split()[:2]) if line.startswith('refused') else line.split()[0]
                                for line in said.splitlines())
    told_counts = ', '.join('%s %d' % (word, words[word]) for word in sorted(words) if word not in ('case', 'at'))
    unset = sum(line.endswith(' U') for line in said.splitlines())
    steps = words['at'] - words['opened']
    print('%d cases, %d steps, %d bytes; %s; %s; unset cells %d' % (
        len(cases), steps, size, runs_of(cases), told_counts, unset), file=sys.stderr)


def write(cases, folder, most):
    made = b''.join(packed(one) for one in cases)
    assert len(made) < most
    os.makedirs(os.path.join(folder, 'data'), exist_ok=True)
    with open(os.path.join(folder, 'data', 'cases.bin'), 'wb') as file:
        file.write(made)
    said = expected(cases)
    with open(os.path.join(folder, 'stdout'), 'wb') as file:
        file.write(said.encode('ascii'))
    tell(cases, len(made), said)


# ---- the reader's own check: worked out by hand ----

WORKED = {
    'the example: four cells, the end, and past it': '''
accepted
opened
at 0 0 0
cell 0 0 0 I 1
at 0 1 1
cell 0 1 0 J 8000
at 1 0 2
cell 1 0 0 I -1
at 1 1 3
cell 1 1 0 J 42
at 2 0 4
end
at 2 0 4
end
at 2 0 4
''',
    '`PI`, `00001PI(9)`, `QI`: one descriptor each': '''
accepted
opened
at 0 0 0
cell 0 0 0 I 513
at 0 1 1
cell 0 1 0 I 1027
at 0 2 2
cell 0 2 0 I 1541
at 0 3 3
cell 0 2 1 I 2055
at 1 0 4
end
at 1 0 4
''',
    'one descriptor each, the heap off': '''
accepted
opened
at 0 0 0
cell 0 0 0 P 1 0
at 0 1 1
cell 0 1 0 P 1 2
at 0 2 2
cell 0 2 0 Q 2 4
at 1 0 3
end
at 1 0 3
''',
    'bit arrays: 1, 7, 8, 9, 16 and 17 bits': '''
accepted
opened
at 0 0 0
cell 0 0 0 X 1
at 1 0 1
cell 1 0 0 X 1
at 2 0 2
cell 2 0 0 X 1
at 3 0 3
cell 3 0 0 X 1
at 3 1 4
cell 3 0 1 X 2
at 4 0 5
cell 4 0 0 X 1
at 4 1 6
cell 4 0 1 X 2
at 5 0 7
cell 5 0 0 X 1
at 5 1 8
cell 5 0 1 X 2
at 5 2 9
cell 5 0 2 X 3
at 6 0 10
end
at 6 0 10
''',
    '`0PE` first, the heap off': '''
accepted
opened
at 0 0 0
cell 0 1 0 I 10
at 1 0 1
cell 1 1 0 I 20
at 2 0 2
end
at 2 0 2
sought
at 1 0 2
row 1
at 2 0 3
list 0 cell 1 1 0 I 20
sought
at 0 0 3
refused 14 1
at 0 0 3
row 1
at 1 0 4
list 0 cell 0 1 0 I 10
list 1 cell 999 99 9 X 165
''',
    '`0QD` between others, the heap on': '''
accepted
opened
at 0 0 0
cell 0 0 0 I 10
at 0 1 1
cell 0 2 0 J 11
at 1 0 2
cell 1 0 0 I 20
at 1 1 3
cell 1 2 0 J 21
at 2 0 4
end
at 2 0 4
sought
at 1 0 4
row 2
at 2 0 6
list 0 cell 1 0 0 I 20
list 1 cell 1 2 0 J 21
sought
at 0 0 6
refused 14 2
at 0 0 6
list 0 cell 999 99 9 X 165
row 2
at 1 0 8
list 0 cell 0 0 0 I 10
list 1 cell 0 2 0 J 11
list 2 cell 999 99 9 X 165
''',
    '`0PE` alone, the heap off': '''
accepted
opened
at 0 0 0
end
at 3 0 0
end
at 3 0 0
sought
at 1 0 0
row 0
at 2 0 0
list 0 cell 999 99 9 X 165
row 0
at 3 0 0
end
at 3 0 0
list 0 cell 999 99 9 X 165
list 1 cell 999 99 9 X 165
refused 12 3
at 3 0 0
sought
at 2 0 0
end
at 3 0 0
''',
    'empty descriptors among others, heap on': '''
accepted
opened
at 0 0 0
cell 0 1 0 B 1
at 0 1 1
cell 0 2 0 B 7
at 0 2 2
cell 0 2 1 B 8
at 0 3 3
cell 0 5 0 B 2
at 1 0 4
cell 1 1 0 B 3
at 1 1 5
cell 1 5 0 B 4
at 2 0 6
cell 2 1 0 B 5
at 2 1 7
cell 2 2 0 B 9
at 2 2 8
cell 2 5 0 B 6
at 3 0 9
end
at 3 0 9
''',
    'a choice of empty descriptors, repeated, heap off': '''
accepted
opened
at 0 0 0
row 0
at 1 0 0
row 0
at 2 0 0
list 0 cell 999 99 9 X 165
row 0
at 3 0 0
list 0 cell 999 99 9 X 165
list 1 cell 999 99 9 X 165
end
at 3 0 0
sought
at 1 0 0
end
at 3 0 0
sought
at 0 0 0
end
at 3 0 0
end
at 3 0 0
''',
    '`2PE` between others: the entry\'s 8': '''
refused 8 2
''',
    '`2QD` last, behind `0PE`, the heap off: the entry\'s 8': '''
refused 8 3
''',
    'a 13 behind empty rows: nothing moves, not even past them': '''
accepted
opened
at 0 0 0
refused 13 0
at 0 0 0
refused 13 0
at 0 0 0
sought
at 1 0 0
refused 13 0
at 1 0 0
refused 13 0
at 1 0 0
sought
at 2 0 0
refused 13 0
at 2 0 0
sought
at 3 0 0
cell 3 0 0 B 8
at 4 0 1
end
at 5 0 1
sought
at 0 0 1
refused 13 0
at 0 0 1
''',
    'empty rows before, between and after': '''
accepted
opened
at 0 0 0
cell 2 0 0 B 7
at 2 1 1
cell 2 0 1 B 8
at 3 0 2
cell 4 0 0 B 8
at 5 0 3
end
at 7 0 3
sought
at 0 0 3
cell 2 0 0 B 7
at 2 1 4
sought
at 3 0 4
cell 4 0 0 B 8
at 5 0 5
end
at 7 0 5
''',
    'a choice with a hole, heap on': '''
accepted
opened
at 0 0 0
cell 0 0 0 B 7
at 0 1 1
cell 0 0 1 B 8
at 0 2 2
cell 0 2 0 B 1
at 1 0 3
cell 1 0 0 B 8
at 1 1 4
cell 1 2 0 B 2
at 2 0 5
end
at 2 0 5
''',
    'seeks between the items of an array': '''
accepted
opened
at 0 0 0
cell 0 0 0 B 7
at 0 1 1
cell 0 0 1 B 8
at 0 2 2
sought
at 1 0 2
cell 1 1 0 B 2
at 2 0 3
cell 2 0 0 B 8
at 2 1 4
sought
at 0 0 4
cell 0 0 0 B 7
at 0 1 5
cell 0 0 1 B 8
at 0 2 6
cell 0 0 2 B 9
at 0 3 7
refused 12 3
at 0 3 7
cell 0 1 0 B 1
at 1 0 8
sought
at 2 0 8
cell 2 0 0 B 8
at 2 1 9
cell 2 0 1 B 9
at 2 2 10
cell 2 1 0 B 3
at 3 0 11
end
at 3 0 11
''',
    'the opening is lent one byte less': '''
accepted
refused 10 0
''',
    'an area one byte short: the entry\'s 10': '''
refused 10 0
''',
    'TFIELDS 0: no column left': '''
accepted
refused 11 0
''',
    'row reads of the example': '''
accepted
opened
at 0 0 0
row 2
at 1 0 2
list 0 cell 0 0 0 I 1
list 1 cell 0 1 0 J 8000
list 2 cell 999 99 9 X 165
row 2
at 2 0 4
list 0 cell 1 0 0 I -1
list 1 cell 1 1 0 J 42
list 2 cell 999 99 9 X 165
end
at 2 0 4
list 0 cell 999 99 9 X 165
list 1 cell 999 99 9 X 165
list 2 cell 999 99 9 X 165
end
at 2 0 4
list 0 cell 999 99 9 X 165
list 1 cell 999 99 9 X 165
list 2 cell 999 99 9 X 165
''',
    'the rest of a row after cell reads': '''
accepted
opened
at 0 0 0
cell 0 0 0 B 1
at 0 1 1
row 3
at 1 0 4
list 0 cell 0 0 1 B 2
list 1 cell 0 0 2 B 3
list 2 cell 0 1 0 I 258
list 3 cell 999 99 9 X 165
cell 1 0 0 B 4
at 1 1 5
cell 1 0 1 B 5
at 1 2 6
cell 1 0 2 B 6
at 1 3 7
row 1
at 2 0 8
list 0 cell 1 1 0 I -1
list 1 cell 999 99 9 X 165
end
at 2 0 8
list 0 cell 999 99 9 X 165
list 1 cell 999 99 9 X 165
''',
    'a row read stops at each empty row, a cell read passes them': '''
accepted
opened
at 0 0 0
row 0
at 1 0 0
list 0 cell 999 99 9 X 165
row 0
at 2 0 0
row 2
at 3 0 2
list 0 cell 2 0 0 B 7
list 1 cell 2 0 1 B 8
list 2 cell 999 99 9 X 165
row 0
at 4 0 2
list 0 cell 999 99 9 X 165
row 1
at 5 0 3
list 0 cell 4 0 0 B 8
row 0
at 6 0 3
end
at 6 0 3
list 0 cell 999 99 9 X 165
sought
at 0 0 3
cell 2 0 0 B 7
at 2 1 4
row 1
at 3 0 5
list 0 cell 2 0 1 B 8
list 1 cell 999 99 9 X 165
cell 4 0 0 B 8
at 5 0 6
row 0
at 6 0 6
list 0 cell 999 99 9 X 165
end
at 6 0 6
''',
    'a 13 that is passed is not in the rest': '''
accepted
opened
at 0 0 0
put
at 0 3 7
refused 14 1
at 0 3 7
row 1
at 1 0 8
list 0 cell 0 2 0 B 9
list 1 cell 999 99 9 X 165
put
at 0 2 0
refused 13 1
at 0 2 0
list 0 cell 999 99 9 X 165
list 1 cell 999 99 9 X 165
put
at 0 4 0
refused 10 0
at 0 4 0
list 0 cell 999 99 9 X 165
list 1 cell 999 99 9 X 165
''',
    'null: the rest of a row, and 14': '''
accepted
opened
at 0 0 0
cell 0 0 0 I 7
at 0 1 1
cell 0 0 1 I 8
at 0 2 2
cell 0 0 2 U
at 0 3 3
refused 14 7
at 0 3 3
list 0 cell 999 99 9 X 165
list 1 cell 999 99 9 X 165
row 7
at 1 0 10
list 0 cell 0 1 0 U
list 1 cell 0 2 0 E 1069547520
list 2 cell 0 3 0 B 7
list 3 cell 0 3 1 U
list 4 cell 0 4 0 L 2
list 5 cell 0 5 0 X 0
list 6 cell 0 6 0 I 7
list 7 cell 999 99 9 X 165
cell 1 0 0 I 8
at 1 1 11
cell 1 1 0 B 8
at 1 2 12
row 4
at 2 0 16
list 0 cell 1 3 0 B 9
list 1 cell 1 3 1 B 7
list 2 cell 1 4 0 L 3 7
list 3 cell 1 6 0 I 8
''',
    'the count of row reads stops': '''
accepted
opened
at 0 0 0
put
at 0 0 4294967292
row 2
at 1 0 4294967294
list 0 cell 0 0 0 I 10
list 1 cell 0 0 1 I 11
row 2
at 2 0 4294967295
list 0 cell 1 0 0 I 20
list 1 cell 1 0 1 I 21
put
at 1 0 4294967293
row 2
at 2 0 4294967295
list 0 cell 1 0 0 I 20
list 1 cell 1 0 1 I 21
put
at 0 0 4294967294
refused 14 2
at 0 0 4294967294
list 0 cell 999 99 9 X 165
row 2
at 1 0 4294967295
list 0 cell 0 0 0 I 10
list 1 cell 0 0 1 I 11
put
at 0 1 4294967295
row 1
at 1 0 4294967295
list 0 cell 0 0 1 I 11
row 2
at 2 0 4294967295
list 0 cell 1 0 0 I 20
list 1 cell 1 0 1 I 21
list 2 cell 999 99 9 X 165
end
at 2 0 4294967295
''',
}


def self_check():
    """Every case by name answers as its line says, and the ones above are printed as worked out."""
    cases = {one.why: one for one in named()}
    assert len(cases) == len(named())
    for why, one in cases.items():
        if one.said is not None:
            assert answers(said_of(one)) == one.said, (why, answers(said_of(one)))
    for why, worked in WORKED.items():
        assert said_of(cases[why]) == worked.strip().split('\n'), why


def main():
    if len(sys.argv) == 3:
        write(random_cases(int(sys.argv[1]), LIMIT - 1), sys.argv[2], LIMIT)
        return
    here = os.path.dirname(os.path.abspath(__file__))
    write(named(), os.path.join(here, '..', 'crates', 'table_cases'), MOST_NAMED)


if __name__ == '__main__':
    self_check()
    main()
