#!/usr/bin/env python3
"""What the programs `cells` and `replay` must print, the tables in their data/, and cases to run them on.

From the repository's root:

    tests/listing.py make
        writes data/ and stdout of crates/cells, crates/cells_example and crates/replay
    tests/listing.py check CELLS REPLAY [--seeds A B]
        runs the two built programs, crates/cells/out/cells and crates/replay/out/replay, on every case below and on random ones,
        one for each number from A to B (0 to 999 if not given)

`check` prints `N cases, 0 differ`; or the first case that differs with both texts, and ends with status 1. A case is a
table.fits and a steps.txt, each of which may be missing; both programs are run on it, in a folder of its own.

`cells_text` and `replay_text` were written from the request's statement of what is printed and not from the programs.
The tables are read by table_cases.py, layout_cases.py and header_cases.py, which were written from the request too.

How the expected texts were worked out. In the table of crates/cells (SHOWN below) every field and every array stands as
its bytes, in hex, beside what must be printed of it, written by hand: integers from two's complement (8000 is -32768,
FFFE is -2), L by its four cases (54 is T, 46 is F, 00 is unset, any other byte is odd), B, A and X as the byte in
decimal, floats as their own digits. The listing made from the right-hand sides alone must be what `cells_text` says of
the file. listing_astropy.py holds the same listing to what the Python package astropy reads from the file. The text of
the example is the request's, word for word. The text of crates/replay (REPLAYED) was walked through by hand, and so
were the texts that stand beside the cases below; `replay_text` and `cells_text` must agree with all of them.
"""
import collections
import os
import random
import re
import subprocess
import sys
import tempfile

sys.dont_write_bytecode = True

from header_cases import BLOCK, END, GOOD, RECORD
from header_cases import end_of, ended, header_length, keyword, padded, record, records_of, text
from layout_cases import Refused, changed, inserted, layout_of, noted_name, quoted, table, without
from table_cases import DOUBLES, FLOATS, READ, ROW, SEEK, SHIFTED, STORED, WHOLE_FORMS, WHOLE_ROW, ZEROS, Bad, Walk, be
from table_cases import case as table_case, choice_of, item_width, nulls_of, p, q, random_case, row_entries, scaled

MOST = 65536
LARGEST = 2 ** 64 - 1
MOST_CELLS = 512

# ---- what is printed ----


def parted(file):
    """The header and the data area of a file, of which only the first bytes are read."""
    file = file[:MOST]
    end = header_length(file)
    return file[:end], file[end:]


def value_text(kind, value):
    if kind == 'U' and not value:
        return 'U'
    if kind == 'L':
        return ['F', 'T', 'U', '?'][value[0]] + ''.join('%d' % byte for byte in value[1:])
    if kind in 'EC':
        return ' '.join('%08x' % bits for bits in value)
    if kind in 'DM':
        return ' '.join('%016x' % bits for bits in value)
    return ' '.join('%d' % number for number in value)


def cell_line(cell):
    return b'cell %d %d %d ' % (cell.row, cell.column, cell.idx) + value_text(cell.kind, cell.value).encode('ascii')


def refused_line(refusal):
    return b'refused %d %d' % refusal.args


def printed(lines):
    return b''.join(line + b'\n' for line in lines)


def layout_lines(layout, header):
    lines = [b'table %d columns %d rows %d bytes' % (len(layout.columns), layout.rows, layout.naxis1)]
    for i, column in enumerate(layout.columns):
        lines.append(b'column %d %s %d at %d %s' % (i, text(column.form[0]), column.count, column.start,
                                                    noted_name(layout, header, i) or b'-'))
    return lines


def cell_lines(layout, area):
    """The cells of all columns, heap on, row after row; then the end, or the first array that leaves the heap."""
    choice, lines = choice_of(layout, None), []
    if not choice:
        return [b'refused 11 0']
    # a row of no bytes has no cells
    for row in range(layout.rows if layout.naxis1 else 0):
        for entry in row_entries(layout, area, choice, True, row):
            if isinstance(entry, Bad):
                return lines + [b'refused 13 %d' % entry.column]
            lines.append(cell_line(entry))
    return lines + [b'end %d' % len(lines)]


def cells_text(file):
    """What `cells` prints."""
    header, area = parted(file)
    try:
        layout = layout_of(header, len(area))
    except Refused as refusal:
        return printed([refused_line(refusal)])
    return printed(layout_lines(layout, header) + cell_lines(layout, area))


# ---- steps ----


def number_of(word):
    """The number that a word of digits stands for, or None."""
    if not re.fullmatch(rb'[0-9]+', word):
        return None
    digits = word.lstrip(b'0') or b'0'
    if len(digits) > 20 or int(digits) > LARGEST:
        return None
    return int(digits)


def lines_of(steps):
    """The lines: each ends at byte 10, the last at the end too."""
    lines = steps[:MOST].split(b'\n')
    return lines[:-1] if lines[-1] == b'' else lines


def setting_of(line):
    """('choose', indexes or None for all) or ('heap', True or False); None for any other line."""
    known = {b'choose all': ('choose', None), b'heap on': ('heap', True), b'heap off': ('heap', False)}
    if line in known:
        return known[line]
    first, *words = line.split(b' ')
    numbers = [number_of(word) for word in words]
    if first != b'choose' or not numbers or None in numbers:
        return None
    return 'choose', numbers


def step_of(line):
    """('cell', 0), ('row', cells of the list) or ('seek', row), and whether it is a scaled read; None for any other
    line."""
    words = line.split(b' ')
    is_scaled = words[0] in (b'cell', b'row') and words[-1] == b'scaled'
    if is_scaled:
        words.pop()
    if words == [b'cell']:
        return 'cell', 0, is_scaled
    number = number_of(words[1]) if len(words) == 2 else None
    if number is None or words[0] not in (b'row', b'seek') or words[0] == b'row' and number > MOST_CELLS:
        return None
    return words[0].decode('ascii'), number, is_scaled


class Kept(Walk):
    """The plain walk, with each row's list made once; the area is always the same here."""

    def __init__(self, *words):
        self.made = {}
        super().__init__(*words)

    def entries(self, area, row):
        if row not in self.made:
            self.made[row] = super().entries(area, row)
        return self.made[row]

    def next(self, area):
        if self.layout.naxis1 == 0:
            # no row has a cell: straight to the end
            self.row, self.passed = self.layout.rows, 0
            return None
        return super().next(area)


def answer_lines(walk, area, step):
    word, number, is_scaled = step
    shown = (lambda cell: cell_line(scaled(walk.layout, cell))) if is_scaled else cell_line
    try:
        if word == 'cell':
            cell = walk.next(area)
            return [b'end' if cell is None else shown(cell)]
        if word == 'seek':
            walk.seek(area, number)
            return [b'seek %d' % number]
        cells = [None] * number
        handed = walk.next_row(area, cells)
        if handed is None:
            return [b'end']
        return [b'row %d' % handed] + [shown(cell) for cell in cells[:handed]]
    except Refused as refusal:
        return [refused_line(refusal)]


def replay_text(file, steps):
    """What `replay` prints."""
    header, area = parted(file)
    lines, made, settings, k = lines_of(steps), [], {'choose': None, 'heap': True}, 0
    try:
        layout = layout_of(header, len(area))
        while k < len(lines) and setting_of(lines[k]):
            word, setting = setting_of(lines[k])
            settings[word] = setting
            k += 1
        walk = Kept(layout, area, settings['choose'], settings['heap'])
    except Refused as refusal:
        return printed([refused_line(refusal)])
    for number, line in enumerate(lines[k:], k + 1):
        step = step_of(line)
        if step is None:
            made.append(b'bad line %d' % number)
            break
        made += answer_lines(walk, area, step)
        made.append(text(walk.place()))
    return printed(made)


# ---- the tables in data/ ----


def fixed(name, value, remark=''):
    """A record in the standard's fixed format: an integer ends at byte 30, a string begins at byte 11."""
    if isinstance(value, int):
        written = '%20d' % value
    else:
        written = ("'%-8s'" % value).ljust(20)
    return keyword(name, written + (' / ' + remark if remark else ''))


def whole(records, area):
    """The file: the header and the area in whole blocks, as the standard has them."""
    return ended(records) + area + bytes(-len(area) % BLOCK)


def required(naxis1, rows, pcount, columns):
    return [
        fixed('XTENSION', 'BINTABLE', 'binary table'), fixed('BITPIX', 8), fixed('NAXIS', 2),
        fixed('NAXIS1', naxis1, 'bytes in a row'), fixed('NAXIS2', rows, 'rows'),
        fixed('PCOUNT', pcount, 'bytes after the rows'), fixed('GCOUNT', 1), fixed('TFIELDS', columns, 'columns'),
    ]


def column_records(forms, names):
    """TTYPEn and TFORMn of each column; no TTYPEn where the name is None."""
    made = []
    for n, (form, name) in enumerate(zip(forms, names), 1):
        if name is not None:
            made.append(fixed('TTYPE%d' % n, name))
        made.append(fixed('TFORM%d' % n, form))
    return made


EXAMPLE = whole(required(6, 2, 0, 2) + column_records(['1I', '1J'], ['POS', 'WT']),
                bytes.fromhex('000100001f40 ffff0000002a'))

EXAMPLE_TEXT = b'''\
table 2 columns 2 rows 6 bytes
column 0 I 1 at 0 POS
column 1 J 1 at 2 WT
cell 0 0 0 1
cell 0 1 0 8000
cell 1 0 0 -1
cell 1 1 0 42
end 4
'''

# The table of crates/cells, a line for each column: what is printed of it after `column I` (letter, count, start,
# name), its form, its name between the quotes of TTYPEn (None for no TTYPEn), and for each of the three rows the bytes
# of the field, or of the array that its descriptor names, and the values of its cells, with commas between them.
#
# The starts add up by hand: 4 bytes of L, then 2 of 12X are 6, 1 of 8X is 7, 3 B are 10, 3 I are 16, 1 J is 20, 2 K are
# 36, 5 A are 41, 2 E are 49, 2 D are 65, 1 C is 73, 1 M is 89, 0E none, then 8 for each P and 16 for each Q: PE 97, QD
# 113, PX 121, PL 129, QI 145, PJ 153, QK 169, PA 177, PB 185, QC 201, PM 209, QX 225.
SHOWN = [
    # 74 is t, which is neither T nor F
    ('L 4 at 0 FLAG', '4L', 'FLAG', [
        ('54 46 00 74', 'T, F, U, ?116'), ('46 54 01 ff', 'F, T, ?1, ?255'), ('00 00 54 20', 'U, U, T, ?32')]),
    # 12 bits take 2 bytes, 8 bits one; a byte is printed as a number
    ('X 12 at 4 BITS', '12X', 'BITS', [('a5 f0', '165, 240'), ('00 10', '0, 16'), ('ff 80', '255, 128')]),
    ('X 8 at 6 -', '8X', None, [('80', '128'), ('01', '1'), ('00', '0')]),
    ('B 3 at 7 RAW', '3B', 'RAW', [
        ('00 7f ff', '0, 127, 255'), ('80 01 2a', '128, 1, 42'), ('09 0a 0d', '9, 10, 13')]),
    # 1F40 is 8000 and E0C0 is 10000 - 1F40, so -8000
    ('I 3 at 10 POS', '3I', 'POS', [
        ('0001 ffff 8000', '1, -1, -32768'), ('7fff 0000 fffe', '32767, 0, -2'),
        ('1f40 e0c0 0100', '8000, -8000, 256')]),
    # FFFFFF9C is 64 below 2 to the 32nd in hex, so -100
    ('J 1 at 16 WT', 'J', 'WT', [('80000000', '-2147483648'), ('7fffffff', '2147483647'), ('ffffff9c', '-100')]),
    # 2 to the 32nd; FFFFFFFEFFFFFFFF is -(2 to the 32nd + 1)
    ('K 2 at 20 TICK', '2K', 'TICK', [
        ('8000000000000000 7fffffffffffffff', '-9223372036854775808, 9223372036854775807'),
        ('ffffffffffffffff 0000000000000000', '-1, 0'),
        ('0000000100000000 fffffffeffffffff', '4294967296, -4294967297')]),
    ('A 5 at 36 HEAD', '5A', 'HEAD', [
        ('47 41 55 47 45', '71, 65, 85, 71, 69'), ('41 20 62 00 00', '65, 32, 98, 0, 0'),
        ('7e 21 27 2f 39', '126, 33, 39, 47, 57')]),
    # 1.5 and a NaN with a payload; the infinities; -0.0 and the smallest number above 0
    ('E 2 at 41 G/M2', '2E', 'G/M2', [
        ('3fc00000 7fc12345', '3fc00000, 7fc12345'), ('7f800000 ff800000', '7f800000, ff800000'),
        ('80000000 00000001', '80000000, 00000001')]),
    # a NaN with a payload and minus pi; the infinities; -0.0 and 1.0
    ("D 2 at 49 IT''S", '2D', "IT''S", [
        ('7ff8123456789abc c00921fb54442d18', '7ff8123456789abc, c00921fb54442d18'),
        ('7ff0000000000000 fff0000000000000', '7ff0000000000000, fff0000000000000'),
        ('8000000000000000 3ff0000000000000', '8000000000000000, 3ff0000000000000')]),
    ('C 1 at 65 -', '1C', '', [
        ('3f800000 c0000000', '3f800000 c0000000'), ('7fc00001 80000000', '7fc00001 80000000'),
        ('00000000 7f7fffff', '00000000 7f7fffff')]),
    ('M 1 at 73 PHASE', '1M', 'PHASE', [
        ('3ff0000000000000 c000000000000000', '3ff0000000000000 c000000000000000'),
        ('fff8abcdef012345 7ff0000000000000', 'fff8abcdef012345 7ff0000000000000'),
        ('8000000000000000 0000000000000001', '8000000000000000 0000000000000001')]),
    # no items, so no cells
    ('E 0 at 89 NONE', '0E', 'NONE', [('', ''), ('', ''), ('', '')]),
    # the second NaN is a signalling one
    ('P 1 at 89 PROFILE', '1PE(3)', 'PROFILE', [
        ('42c80000 ffc54321 7f800001', '42c80000, ffc54321, 7f800001'), ('', ''), ('80000000', '80000000')]),
    ('Q 1 at 97 FINE', '1QD(2)', 'FINE', [
        ('', ''), ('7ff0000000000001 4059000000000000', '7ff0000000000001, 4059000000000000'),
        ('fff0000000000000', 'fff0000000000000')]),
    # 11 bits take 2 bytes, 3 bits and 8 bits one; see BIT_COUNTS
    ('P 1 at 113 MASK', 'PX(11)', 'MASK', [('c3 60', '195, 96'), ('a0', '160'), ('81', '129')]),
    ('P 1 at 121 SEEN', '1PL(4)', 'SEEN', [('54 46 00 59', 'T, F, U, ?89'), ('54', 'T'), ('', '')]),
    ('Q 1 at 129 STEP', 'QI(2)', 'STEP', [('8001 7ffe', '-32767, 32766'), ('', ''), ('ff00', '-256')]),
    ('P 1 at 145 SUM', '1PJ(2)', 'SUM', [('', ''), ('80000001 fffffffe', '-2147483647, -2'), ('00010000', '65536')]),
    ('Q 1 at 153 CLOCK', '1QK(1)', 'CLOCK', [
        ('8000000000000001', '-9223372036854775807'), ('', ''), ('7ffffffffffffffe', '9223372036854775806')]),
    ('P 1 at 169 NOTE', '1PA(5)', 'NOTE', [
        ('', ''), ('77 65 62', '119, 101, 98'), ('65 64 67 65 21', '101, 100, 103, 101, 33')]),
    ('P 1 at 177 BYTES', '1PB(3)', 'BYTES', [('00 80 ff', '0, 128, 255'), ('07', '7'), ('', '')]),
    ('Q 1 at 185 WAVE', '1QC(1)', 'WAVE', [('', ''), ('', ''), ('7fc0ffee c2280000', '7fc0ffee c2280000')]),
    ('P 1 at 201 PAIR', '1PM(1)', 'PAIR', [
        ('7ff800000000002a 4045000000000000', '7ff800000000002a 4045000000000000'), ('', ''), ('', '')]),
    ('Q 1 at 209 EDGES', '1QX(9)', 'EDGES', [('ff 80', '255, 128'), ('', ''), ('40', '64')]),
]

# the bits of each bit array, by column and row; 0 for an empty one
BIT_COUNTS = {(15, 0): 11, (15, 1): 3, (15, 2): 8, (24, 0): 9, (24, 1): 0, (24, 2): 2}

# what stands between the rows and the heap, in no cell
GAP = bytes.fromhex('de ad be ef 54 46')
ROW_BYTES = 225


def shown_file():
    """The table of crates/cells. The arrays stand one behind the other in the heap, row after row. An empty one has the
    offset 0 in row 0, and one far outside the heap in the others: count 0 gives no cells with any offset."""
    rows, heap = b'', b''
    for row in range(3):
        for c, (_, form, _, fields) in enumerate(SHOWN):
            field = bytes.fromhex(fields[row][0])
            letters = form.lstrip('0123456789')
            if letters[0] in 'PQ':
                count = BIT_COUNTS[c, row] if letters[1] == 'X' else len(field) // item_width(letters[1])
                offset = len(heap) if field else 0 if row == 0 else 999999
                rows += (p if letters[0] == 'P' else q)(count, offset)
                heap += field
            else:
                rows += field
    assert len(rows) == 3 * ROW_BYTES
    forms, names = [one[1] for one in SHOWN], [one[2] for one in SHOWN]
    records = required(ROW_BYTES, 3, len(GAP) + len(heap), len(SHOWN)) + column_records(forms, names)
    records += [fixed('THEAP', 3 * ROW_BYTES + len(GAP), 'the heap begins after a gap'),
                record('COMMENT A table that shows every form letter; its L bytes are not all T, F or 0.')]
    return whole(records, rows + GAP + heap)


def shown_text():
    """The listing made from what stands beside the bytes in SHOWN, and from nothing else."""
    lines = ['table %d columns 3 rows %d bytes' % (len(SHOWN), ROW_BYTES)]
    lines += ['column %d %s' % (c, one[0]) for c, one in enumerate(SHOWN)]
    cells = 0
    for row in range(3):
        for c, one in enumerate(SHOWN):
            values = one[3][row][1].split(', ') if one[3][row][1] else []
            lines += ['cell %d %d %d %s' % (row, c, idx, value) for idx, value in enumerate(values)]
            cells += len(values)
    return printed([text(line) for line in lines + ['end %d' % cells]])


def replayed_file():
    """The table of crates/replay: six rows of five columns. The heap of 34 bytes holds three single floats (0), two
    integers of 16 bits (12), two single floats (16), one integer (24), four bytes that nothing names (26), and, at its
    very end, a float (30). The array of column 3 in row 3 begins in the heap and ends 2 bytes past it."""
    rows = [
        be(2, 100) + p(3, 0) + be(4, 41500) + q(2, 12) + be(1, 1, 2),
        be(2, 101) + p(0, 0) + be(4, -41500) + q(0, LARGEST) + be(1, 3, 4),
        be(2, 102) + p(2, 16) + be(4, 0) + q(1, 24) + be(1, 5, 6),
        be(2, 103) + p(0, 7) + be(4, 1) + q(2, 32) + be(1, 7, 8),
        be(2, 104) + p(0, 99) + be(4, -1) + q(0, 0) + be(1, 9, 10),
        be(2, 105) + p(1, 30) + be(4, 2) + q(0, 0) + be(1, 11, 12),
    ]
    heap = (be(4, 0x42C80000, 0xC2C80000, 0x7FC12345) + be(2, 300, -300) + be(4, 0x80000000, 0x3F800000) + be(2, -32768)
            + be(4, 0xEEEEEEEE) + be(4, 0x7F800000))
    assert len(heap) == 34 and all(len(row) == 32 for row in rows)
    forms = ['1I', '1PE(3)', '1J', '1QI(2)', '2B']
    records = required(32, 6, len(heap), 5) + column_records(forms, ['POS', 'PROFILE', 'WT', 'STEP', 'MARK'])
    return whole(records, b''.join(rows) + heap)


# A line of crates/replay/data/steps.txt on the left, what it prints on the right. The choice is columns 1 and 3, the
# heap is on: row 0 has 5 cells, row 1 none, row 2 has 3, row 3 is the array that leaves the heap, row 4 has none, row 5
# has 1.
REPLAYED = [
    ('choose 0', ''),
    ('heap off', ''),
    ('choose all', ''),
    ('choose 3 1 3 9', ''),
    ('heap on', ''),
    # cells of row 0, then too small a list for the three that are left of it
    ('cell', 'cell 0 1 0 42c80000 | at 0 1 1'),
    ('cell', 'cell 0 1 1 c2c80000 | at 0 2 2'),
    ('row 2', 'refused 14 3 | at 0 2 2'),
    ('row 0', 'refused 14 3 | at 0 2 2'),
    ('row 3', 'row 3 | cell 0 1 2 7fc12345 | cell 0 3 0 300 | cell 0 3 1 -300 | at 1 0 5'),
    # row 1 is empty; a row read stops at it
    ('row 0', 'row 0 | at 2 0 5'),
    ('row 512', 'row 3 | cell 2 1 0 80000000 | cell 2 1 1 3f800000 | cell 2 3 0 -32768 | at 3 0 8'),
    # row 3: its only entry is a refusal, which moves nothing
    ('cell', 'refused 13 3 | at 3 0 8'),
    ('row 0', 'refused 13 3 | at 3 0 8'),
    ('row 512', 'refused 13 3 | at 3 0 8'),
    ('seek 6', 'refused 12 6 | at 3 0 8'),
    ('seek 18446744073709551615', 'refused 12 18446744073709551615 | at 3 0 8'),
    # a cell read passes the empty row 1, and row 4
    ('seek 1', 'seek 1 | at 1 0 8'),
    ('cell', 'cell 2 1 0 80000000 | at 2 1 9'),
    ('seek 004', 'seek 4 | at 4 0 9'),
    ('cell', 'cell 5 1 0 7f800000 | at 6 0 10'),
    # past the end
    ('cell', 'end | at 6 0 10'),
    ('row 0', 'end | at 6 0 10'),
    ('row 512', 'end | at 6 0 10'),
    ('seek 6', 'refused 12 6 | at 6 0 10'),
    # from row 4 to the end, by rows
    ('seek 4', 'seek 4 | at 4 0 10'),
    ('row 512', 'row 0 | at 5 0 10'),
    ('row 0', 'refused 14 1 | at 5 0 10'),
    ('row 1', 'row 1 | cell 5 1 0 7f800000 | at 6 0 11'),
    ('row 1', 'end | at 6 0 11'),
    ('seek 0', 'seek 0 | at 0 0 11'),
    ('cell', 'cell 0 1 0 42c80000 | at 0 1 12'),
    # a setting after the first step: line 33
    ('choose all', 'bad line 33'),
    ('cell', ''),
]


def replayed_steps():
    return printed([text(line) for line, _ in REPLAYED])


def replayed_text():
    return printed([text(line) for _, said in REPLAYED for line in said.split(' | ') if line])


BUNDLES = {
    'cells': lambda: {'data/table.fits': shown_file(), 'stdout': shown_text()},
    'cells_example': lambda: {'data/table.fits': EXAMPLE, 'stdout': EXAMPLE_TEXT},
    'replay': lambda: {'data/table.fits': replayed_file(), 'data/steps.txt': replayed_steps(),
                       'stdout': replayed_text()},
}


def make():
    crates = os.path.join(os.path.dirname(os.path.abspath(__file__)), '..', 'crates')
    for crate in BUNDLES:
        for name, content in BUNDLES[crate]().items():
            path = os.path.join(crates, crate, name)
            os.makedirs(os.path.dirname(path), exist_ok=True)
            with open(path, 'wb') as file:
                file.write(content)
            print('crates/%s/%s: %d bytes' % (crate, name, len(content)), file=sys.stderr)


# ---- cases by name ----

# The table and the steps are bytes, or None for a missing file; the texts are worked out by hand, or None where they
# are long.
Case = collections.namedtuple('Case', 'why table steps cells replay')

ROWS = bytes.fromhex('000100001f40 ffff0000002a')
GOOD_FILE = ended(GOOD) + ROWS


def case(why, table, steps, cells=None, replay=None):
    return Case(why, table, steps, *[None if said is None else said if isinstance(said, bytes) else text(said)
                                     for said in (cells, replay)])


def both(why, table, steps, said):
    """A case in which the two programs print the same."""
    return case(why, table, steps, said, said)


def small(forms, rows, heap=b'', names=(), gap=None, keywords=()):
    """A file of a table: rows of bytes (or a number of rows of no bytes), what follows them, names, and the values of
    TSCALn, TZEROn and TNULLn by their names."""
    made = table_case('', None, forms, rows, [], heap=heap, gap=gap, keywords=keywords)
    records = [keyword('TTYPE%d' % n, quoted(name)) for n, name in enumerate(names, 1) if name is not None]
    cards = records_of(made.header)[:end_of(made.header)]
    return ended(cards + records) + made.area


EX = EXAMPLE_TEXT


def longest(records):
    """A header of 20 blocks whose last record is END."""
    return b''.join(records + [record('')] * (719 - len(records)) + [END])


def file_cases():
    """Files that are missing, empty, cut or without END."""
    cut = ended(changed('NAXIS2', '10443')) + ROWS * 6000
    fits = ended(changed('NAXIS2', '10442')) + ROWS * 6000
    return [
        both('no table.fits', None, b'cell\n', 'refused 1 0\n'),
        both('neither file', None, None, 'refused 1 0\n'),
        both('an empty table.fits, a bad line', b'', b'bad\n', 'refused 1 0\n'),
        case('no steps.txt', GOOD_FILE, None, EX, ''),
        case('the example as it is bundled, an empty steps.txt', EXAMPLE, b'', EX, ''),
        both('no END: 2,880 bytes', b''.join(GOOD).ljust(BLOCK), b'cell\n', 'refused 2 0\n'),
        both('no END, and rows behind the block: all is header', b''.join(GOOD).ljust(BLOCK) + ROWS, b'cell\n',
             'refused 1 0\n'),
        both('no END in 65,536 bytes, END behind them', b' ' * 65600 + END, b'', 'refused 1 0\n'),
        both('no END in 57,600 bytes', b' ' * 57600, b'', 'refused 2 0\n'),
        both('END in a block that is cut', GOOD_FILE[:2879], b'cell\n', 'refused 1 0\n'),
        both('END alone, 80 bytes', END, b'cell\n', 'refused 1 0\n'),
        both('END in the 21st block', ended(GOOD + [record('')] * 720) + ROWS, b'cell\n', 'refused 1 0\n'),
        case('END in the last record of the 20th block', longest(GOOD) + ROWS, b'seek 1\nrow 2\n', EX,
             'seek 1\nat 1 0 0\nrow 2\ncell 1 0 0 -1\ncell 1 1 0 42\nat 2 0 2\n'),
        both('the file is cut at 65,536 bytes, inside row 10,442', cut, b'cell\n', 'refused 10 0\n'),
        case('a longer file whose rows end before the cut', fits, b'seek 10441\nrow 2\ncell\nseek 10442\n', None,
             'seek 10441\nat 10441 0 0\nrow 2\ncell 10441 0 0 -1\ncell 10441 1 0 42\nat 10442 0 2\n'
             'end\nat 10442 0 2\nrefused 12 10442\nat 10442 0 2\n'),
        case('the last byte read is the last of the table', ended(table(['62656A'], 62656)) + b'ab' * 40000,
             b'row 512\ncell\n', None, 'refused 14 62656\nat 0 0 0\ncell 0 0 0 97\nat 0 1 1\n'),
        both('one byte more than that', ended(table(['62657A'], 62657)) + b'ab' * 40000, b'', 'refused 10 0\n'),
        case('7,936 bytes behind the longest header', longest(table(['7936A'], 7936)) + b'ab' * 4000,
             b'row 1\nseek 0\ncell', None, 'refused 14 7936\nat 0 0 0\nseek 0\nat 0 0 0\ncell 0 0 0 97\nat 0 1 1\n'),
        both('7,937 bytes behind the longest header', longest(table(['7937A'], 7937)) + b'ab' * 4000, b'cell\n',
             'refused 10 0\n'),
    ]


def refusal_cases():
    """Each refusal, with the request's example of it."""
    twice = ended(inserted(9, keyword('NAXIS', '2'))) + ROWS
    five = small(['1PB'], [p(5, 0)], heap=bytes(4))
    return [
        both('1: 2,881 bytes', b' ' * 2881, b'', 'refused 1 0\n'),
        both('2: 36 blank records', b' ' * 2880, b'', 'refused 2 0\n'),
        both('3: NAXIS in records 2 and 9', twice, b'', 'refused 3 9\n'),
        both('3: NAXIS in records 2 and 718', longest(GOOD + [record('')] * 706 + [keyword('NAXIS', '2')]), b'',
             'refused 3 718\n'),
        both('4: TFIELDS 64, 63 forms', ended(changed('TFIELDS', '64', of=table(['1B'] * 63, 63))), b'',
             'refused 4 64\n'),
        both('4: TFIELDS 2, no TFORM2', ended(without('TFORM2')) + ROWS, b'', 'refused 4 2\n'),
        both('4: no TFIELDS', ended(without('TFIELDS')) + ROWS, b'', 'refused 4 0\n'),
        both("5: BITPIX = '8'", ended(changed('BITPIX', "'8'")) + ROWS, b'', 'refused 5 1\n'),
        both('6: GCOUNT 2', ended(changed('GCOUNT', '2')) + ROWS, b'', 'refused 6 6\n'),
        both('7: TFIELDS 65', ended(changed('TFIELDS', '65')) + ROWS, b'', 'refused 7 7\n'),
        both('8: 3Z', ended(changed('TFORM2', "'3Z'")) + ROWS, b'', 'refused 8 2\n'),
        both('9: 1I, NAXIS1 3', ended(table(['1I'], 3)) + ROWS, b'', 'refused 9 0\n'),
        both('10: 11 bytes for 12', GOOD_FILE[:-1], b'', 'refused 10 0\n'),
        case('11: choice of column 9 of 2', GOOD_FILE, b'choose 9\ncell\n', EX, 'refused 11 0\n'),
        case('12: row 2 of 2', GOOD_FILE, b'seek 2\n', EX, 'refused 12 2\nat 0 0 0\n'),
        case('13: 5 bytes in a heap of 4', five, b'cell\nrow 0\nrow 512\n',
             'table 1 columns 1 rows 8 bytes\ncolumn 0 P 1 at 0 -\nrefused 13 0\n',
             'refused 13 0\nat 0 0 0\nrefused 13 0\nat 0 0 0\nrefused 13 0\nat 0 0 0\n'),
        case('13: the same with the heap off', five, b'heap off\ncell\ncell\n', None,
             'cell 0 0 0 5 0\nat 1 0 1\nend\nat 1 0 1\n'),
        case('13 in column 63', small(['1B'] * 63 + ['1PB'], [bytes(63) + p(1, 0)]), b'choose 63\ncell\n', None,
             'refused 13 63\nat 0 0 0\n'),
        case('14: list of 3, row of 4', small(['4B'], [b'\1\2\3\4']), b'row 3\nrow 4\n', None,
             'refused 14 4\nat 0 0 0\nrow 4\ncell 0 0 0 1\ncell 0 0 1 2\ncell 0 0 2 3\ncell 0 0 3 4\nat 1 0 4\n'),
    ]


def table_cases():
    """Layouts, names and values."""
    odd = b"it''s  \xe9\xff\x01\x7f/ \x00''"
    late = small(['1B', '1PI', '1A'], [b'\1' + p(1, 0) + b'A', b'\2' + p(1, 1) + b'B', b'\3' + p(2, 0) + b'C'],
                 heap=be(2, -5) + b'\x09', names=['N', 'ARR', None])
    return [
        case('TFIELDS 0, no rows', small([], 0), b'', 'table 0 columns 0 rows 0 bytes\nrefused 11 0\n',
             'refused 11 0\n'),
        case('TFIELDS 0, 3 rows of no bytes, a bad line', small([], 3), b'choose 0\nbad\n',
             'table 0 columns 3 rows 0 bytes\nrefused 11 0\n', 'refused 11 0\n'),
        case('no rows', small(['1I', '1J'], []), b'cell\nrow 0\nseek 0\n',
             'table 2 columns 0 rows 6 bytes\ncolumn 0 I 1 at 0 -\ncolumn 1 J 1 at 2 -\nend 0\n',
             'end\nat 0 0 0\nend\nat 0 0 0\nrefused 12 0\nat 0 0 0\n'),
        case('names of odd bytes: doubled quotes, spaces, bytes above 127, a line feed',
             small(['1B'] * 5, [b'\1\2\3\4\5'], names=[odd + b'   ', b'  a  b ', b'\n', b"''" * 34, b'\xa0']), b'',
             b'table 5 columns 1 rows 5 bytes\ncolumn 0 B 1 at 0 ' + odd + b'\ncolumn 1 B 1 at 1   a  b\n'
             b'column 2 B 1 at 2 \n\ncolumn 3 B 1 at 3 ' + b"'" * 68 + b'\ncolumn 4 B 1 at 4 \xa0\n'
             b'cell 0 0 0 1\ncell 0 1 0 2\ncell 0 2 0 3\ncell 0 3 0 4\ncell 0 4 0 5\nend 5\n', ''),
        case('names: missing, empty, blank, a hyphen, one quote, the longest',
             small(['1B'] * 6, [], names=[None, '', '     ', '-', "''", 'N' * 68]), None,
             b"table 6 columns 0 rows 6 bytes\ncolumn 0 B 1 at 0 -\ncolumn 1 B 1 at 1 -\ncolumn 2 B 1 at 2 -\n"
             b"column 3 B 1 at 3 -\ncolumn 4 B 1 at 4 ''\ncolumn 5 B 1 at 5 " + b'N' * 68 + b'\nend 0\n', ''),
        case('counts of forms, with rests, of no rows',
             small(['PE(20)', '0PI', '001QI', '12X', '007I', 'E', '0M', '0X', '1Azz'], [],
                   names=['a', 'b', 'c', 'd', 'e', 'f', 'g', 'h', 'i']), b'',
             'table 9 columns 0 rows 45 bytes\ncolumn 0 P 1 at 0 a\ncolumn 1 P 0 at 8 b\ncolumn 2 Q 1 at 8 c\n'
             'column 3 X 12 at 24 d\ncolumn 4 I 7 at 26 e\ncolumn 5 E 1 at 40 f\ncolumn 6 M 0 at 44 g\n'
             'column 7 X 0 at 44 h\ncolumn 8 A 1 at 44 i\nend 0\n', ''),
        case('the largest count and start', small(['8388608X', '0B'], []), b'cell\n',
             'table 2 columns 0 rows 1048576 bytes\ncolumn 0 X 8388608 at 0 -\ncolumn 1 B 0 at 1048576 -\nend 0\n',
             'end\nat 0 0 0\n'),
        case('an array outside the heap after some cells', late, b'row 9\nrow 9\ncell\ncell\ncell\nseek 2\n',
             'table 3 columns 3 rows 10 bytes\ncolumn 0 B 1 at 0 N\ncolumn 1 P 1 at 1 ARR\ncolumn 2 A 1 at 9 -\n'
             'cell 0 0 0 1\ncell 0 1 0 -5\ncell 0 2 0 65\ncell 1 0 0 2\ncell 1 1 0 -1271\ncell 1 2 0 66\ncell 2 0 0 3\n'
             'refused 13 1\n',
             'row 3\ncell 0 0 0 1\ncell 0 1 0 -5\ncell 0 2 0 65\nat 1 0 3\n'
             'row 3\ncell 1 0 0 2\ncell 1 1 0 -1271\ncell 1 2 0 66\nat 2 0 6\n'
             'cell 2 0 0 3\nat 2 1 7\nrefused 13 1\nat 2 1 7\nrefused 13 1\nat 2 1 7\nseek 2\nat 2 0 7\n'),
        case('descriptors with the heap off: the largest numbers',
             small(['1PB', '1QM'], [p(2 ** 32 - 1, 2 ** 32 - 2) + q(LARGEST, LARGEST - 1), p(0, 1) + q(0, 2)]),
             b'heap off\nrow 2\ncell\nrow 1\n',
             'table 2 columns 2 rows 24 bytes\ncolumn 0 P 1 at 0 -\ncolumn 1 Q 1 at 8 -\nrefused 13 0\n',
             'row 2\ncell 0 0 0 4294967295 4294967294\ncell 0 1 0 18446744073709551615 18446744073709551614\nat 1 0 2\n'
             'cell 1 0 0 0 1\nat 1 1 3\nrow 1\ncell 1 1 0 0 2\nat 2 0 4\n'),
        case('16,777,216 rows of no bytes', ended(table(['0E'], 0, rows=16777216)),
             b'seek 16777215\nrow 0\nrow 0\nseek 0\ncell\n',
             'table 1 columns 16777216 rows 0 bytes\ncolumn 0 E 0 at 0 -\nend 0\n',
             'seek 16777215\nat 16777215 0 0\nrow 0\nat 16777216 0 0\nend\nat 16777216 0 0\nseek 0\nat 0 0 0\n'
             'end\nat 16777216 0 0\n'),
        case('64 columns, END in the second block',
             small(['1B'] * 64, [bytes(range(64)), bytes(range(255, 191, -1))], names=['C%d' % n for n in range(64)]),
             b'choose 63 0 64\nrow 2\nrow 2\n', None,
             'row 2\ncell 0 0 0 0\ncell 0 63 0 63\nat 1 0 2\nrow 2\ncell 1 0 0 255\ncell 1 63 0 192\nat 2 0 4\n'),
        case('L and complex values',
             small(['4L', '1C', '1M'], [b'TF\0f' + be(4, 0x7FC00000, 0xABCDEF) + be(8, 0xFFF0 << 48, 0xA)]), b'row 6\n',
             'table 3 columns 1 rows 28 bytes\ncolumn 0 L 4 at 0 -\ncolumn 1 C 1 at 4 -\ncolumn 2 M 1 at 12 -\n'
             'cell 0 0 0 T\ncell 0 0 1 F\ncell 0 0 2 U\ncell 0 0 3 ?102\ncell 0 1 0 7fc00000 00abcdef\n'
             'cell 0 2 0 fff0000000000000 000000000000000a\nend 6\n',
             'row 6\ncell 0 0 0 T\ncell 0 0 1 F\ncell 0 0 2 U\ncell 0 0 3 ?102\ncell 0 1 0 7fc00000 00abcdef\n'
             'cell 0 2 0 fff0000000000000 000000000000000a\nat 1 0 6\n'),
        case('512 cells, and 513', small(['512A'], [b'x' * 512] * 2), b'row 511\nrow 512\ncell\nrow 510\nrow 511\n'),
        case('513 cells', small(['513A'], [b'x' * 513] * 2), b'row 512\ncell\nrow 512\nrow 512\n'),
        case('the table of crates/cells', shown_file(), b'row 512\nseek 2\ncell\nrow 512\nrow 512\n', shown_text()),
        case('the same with the heap off', shown_file(), b'heap off\nrow 512\nrow 512\ncell\nseek 0\ncell\n'),
        case('the same, heap columns alone', shown_file(),
             b'choose 13 14 15 16 17 18 19 20 21 22 23 24\nrow 512\nrow 9\nrow 512\nrow 512\n'),
        case('the table and the steps of crates/replay', replayed_file(), replayed_steps(), None, replayed_text()),
        case('the same table, all columns', replayed_file(), b'cell\n' * 40),
    ]


def empty_field_cases():
    """Descriptors that are not there: P and Q of count 0, fields of no bytes and no cells."""
    made = []
    for form in ('0PE', '0QD'):
        letter = form[1]
        for setting in (b'', b'heap off\n'):
            where = '%s, the heap %s' % (form, 'off' if setting else 'on')
            alone = 'table 1 columns 2 rows 0 bytes\ncolumn 0 %s 0 at 0 NO\nend 0\n' % letter
            first = 'table 2 columns 2 rows 2 bytes\ncolumn 0 %s 0 at 0 NO\ncolumn 1 I 1 at 0 POS\n' % letter
            last = 'table 2 columns 2 rows 2 bytes\ncolumn 0 I 1 at 0 POS\ncolumn 1 %s 0 at 2 NO\n' % letter
            between = ('table 3 columns 1 rows 6 bytes\ncolumn 0 I 1 at 0 POS\ncolumn 1 %s 0 at 2 -\n'
                       'column 2 J 1 at 2 WT\n' % letter)
            positions = [be(2, 100), be(2, -100)]
            made += [
                case('alone: ' + where, small([form], 2, names=['NO']),
                     setting + b'row 0\ncell\nseek 1\nrow 1\nrow 0\n', alone,
                     'row 0\nat 1 0 0\nend\nat 2 0 0\nseek 1\nat 1 0 0\nrow 0\nat 2 0 0\nend\nat 2 0 0\n'),
                case('alone, no rows: ' + where, small([form], 0), setting + b'cell\nrow 0\nseek 0\n',
                     'table 1 columns 0 rows 0 bytes\ncolumn 0 %s 0 at 0 -\nend 0\n' % letter,
                     'end\nat 0 0 0\nend\nat 0 0 0\nrefused 12 0\nat 0 0 0\n'),
                case('first: ' + where, small([form, '1I'], positions, names=['NO', 'POS']),
                     setting + b'cell\nrow 0\nrow 1\ncell\n', first + 'cell 0 1 0 100\ncell 1 1 0 -100\nend 2\n',
                     'cell 0 1 0 100\nat 1 0 1\nrefused 14 1\nat 1 0 1\nrow 1\ncell 1 1 0 -100\nat 2 0 2\nend\n'
                     'at 2 0 2\n'),
                case('last: ' + where, small(['1I', form], positions, names=['POS', 'NO']),
                     setting + b'row 2\nrow 0\ncell\ncell\n', last + 'cell 0 0 0 100\ncell 1 0 0 -100\nend 2\n',
                     'row 1\ncell 0 0 0 100\nat 1 0 1\nrefused 14 1\nat 1 0 1\ncell 1 0 0 -100\nat 2 0 2\nend\n'
                     'at 2 0 2\n'),
                case('between: ' + where, small(['1I', form, '1J'], [be(2, 7) + be(4, -7)], names=['POS', None, 'WT']),
                     setting + b'row 1\ncell\nrow 1\nseek 0\nrow 2\n',
                     between + 'cell 0 0 0 7\ncell 0 2 0 -7\nend 2\n',
                     'refused 14 2\nat 0 0 0\ncell 0 0 0 7\nat 0 1 1\nrow 1\ncell 0 2 0 -7\nat 1 0 2\nseek 0\n'
                     'at 0 0 2\nrow 2\ncell 0 0 0 7\ncell 0 2 0 -7\nat 1 0 4\n'),
            ]
    # the array of column 2 has two items, then ends a byte past the heap
    beside = small(['0PB', '1B', '1PB', '0QB', '00QX(9)'], [b'\1' + p(2, 1), b'\2' + p(3, 1)], heap=b'\7\x08\x09')
    listed = ('table 5 columns 2 rows 9 bytes\ncolumn 0 P 0 at 0 -\ncolumn 1 B 1 at 0 -\ncolumn 2 P 1 at 1 -\n'
              'column 3 Q 0 at 9 -\ncolumn 4 Q 0 at 9 -\ncell 0 1 0 1\ncell 0 2 0 8\ncell 0 2 1 9\ncell 1 1 0 2\n'
              'refused 13 2\n')
    rest = 'row 0\nat 1 0 0\nrow 0\nat 2 0 0\nend\nat 2 0 0\nseek 0\nat 0 0 0\nend\nat 2 0 0\n'
    return made + [
        case('side by side beside arrays, one outside the heap', beside, b'row 2\nrow 3\ncell\ncell\nrow 9\n', listed,
             'refused 14 3\nat 0 0 0\nrow 3\ncell 0 1 0 1\ncell 0 2 0 8\ncell 0 2 1 9\nat 1 0 3\ncell 1 1 0 2\n'
             'at 1 1 4\nrefused 13 2\nat 1 1 4\nrefused 13 2\nat 1 1 4\n'),
        case('side by side beside arrays, the heap off', beside, b'heap off\nrow 2\ncell\ncell\ncell\n', listed,
             'row 2\ncell 0 1 0 1\ncell 0 2 0 2 1\nat 1 0 2\ncell 1 1 0 2\nat 1 1 3\ncell 1 2 0 3 1\nat 2 0 4\nend\n'
             'at 2 0 4\n'),
        case('an empty descriptor chosen alone, beside an array outside the heap', beside,
             b'choose 3\nrow 0\nrow 1\nrow 2\nseek 0\ncell\n', listed, rest),
        case('empty descriptors chosen, repeated, the heap off', beside,
             b'heap off\nchoose 4 0 3 0 9\nrow 0\nrow 1\nrow 2\nseek 0\ncell\n', listed, rest),
        case('empty descriptors left out', beside, b'choose 2 1\ncell\ncell\nrow 1\n', listed,
             'cell 0 1 0 1\nat 0 1 1\ncell 0 2 0 8\nat 0 2 2\nrow 1\ncell 0 2 1 9\nat 1 0 3\n'),
        case('an empty descriptor chosen with a column of bytes, twice each', beside,
             b'choose 1 0 1 0\nrow 0\nrow 1\ncell\ncell\n', listed,
             'refused 14 1\nat 0 0 0\nrow 1\ncell 0 1 0 1\nat 1 0 1\ncell 1 1 0 2\nat 2 0 2\nend\nat 2 0 2\n'),
        case('no column left beside an empty descriptor', small(['0PE'], 1), b'choose 1\ncell\n',
             'table 1 columns 1 rows 0 bytes\ncolumn 0 P 0 at 0 -\nend 0\n', 'refused 11 0\n'),
        case('`0PE` and `0E`', small(['0PE', '0E'], 1, names=['P', 'E']), b'cell\nseek 0\nrow 0\nrow 0\n',
             'table 2 columns 1 rows 0 bytes\ncolumn 0 P 0 at 0 P\ncolumn 1 E 0 at 0 E\nend 0\n',
             'end\nat 1 0 0\nseek 0\nat 0 0 0\nrow 0\nat 1 0 0\nend\nat 1 0 0\n'),
        case('`PE`, `1PE`, `PE(20)`, `00001PE`, `00PE`, `0PX`',
             small(['PB', '1PB', 'PB(20)', '00001PB', '00PB', '0PX'], [p(1, 0) + p(1, 1) + p(0, 9) + p(2, 1)],
                   heap=b'\7\x08\x09'), b'row 4\n',
             'table 6 columns 1 rows 32 bytes\ncolumn 0 P 1 at 0 -\ncolumn 1 P 1 at 8 -\ncolumn 2 P 1 at 16 -\n'
             'column 3 P 1 at 24 -\ncolumn 4 P 0 at 32 -\ncolumn 5 P 0 at 32 -\n'
             'cell 0 0 0 7\ncell 0 1 0 8\ncell 0 3 0 8\ncell 0 3 1 9\nend 4\n',
             'row 4\ncell 0 0 0 7\ncell 0 1 0 8\ncell 0 3 0 8\ncell 0 3 1 9\nat 1 0 4\n'),
        case('16,777,216 rows of `0PE` and `0QD`', ended(table(['0PE', '0QD'], 0, rows=16777216)),
             b'heap off\ncell\nseek 16777215\nrow 1\nrow 0\nseek 0\nrow 0\ncell\n',
             'table 2 columns 16777216 rows 0 bytes\ncolumn 0 P 0 at 0 -\ncolumn 1 Q 0 at 0 -\nend 0\n',
             'end\nat 16777216 0 0\nseek 16777215\nat 16777215 0 0\nrow 0\nat 16777216 0 0\nend\nat 16777216 0 0\n'
             'seek 0\nat 0 0 0\nrow 0\nat 1 0 0\nend\nat 16777216 0 0\n'),
    ]


def above_one_cases():
    """Counts above 1 before P and Q, and forms without an element: refusal 8 with the column, counted from 1. And rows
    that have bytes for a descriptor of count 0."""
    made = [
        both('9: `0PE` alone, NAXIS1 8', ended(table(['0PE'], 8)) + bytes(8), b'cell\n', 'refused 9 0\n'),
        both('9: `0QD` between others, NAXIS1 with 16 bytes more', ended(table(['1I', '0QD', '1J'], 22)) + bytes(22),
             b'heap off\n', 'refused 9 0\n'),
        both('8: counts of forms, with rests, of no rows',
             ended(table(['PE(20)', '0PI', '8388608QI', '12X', '007I', 'E', '0M', '0X', '1Azz'], 53, rows=0)
                   + [keyword('TTYPE%d' % n, quoted(name)) for n, name in enumerate('abcdefghi', 1)]), b'',
             'refused 8 3\n'),
    ]
    for form, bytes_of_one in (('2PE', 8), ('2QD', 16), ('8388608PE', 8), ('002PX(9)', 8), ('2P', 8), ('0P', 0),
                               ('0PZ', 0)):
        for taken in sorted({0, bytes_of_one, 2 * bytes_of_one}):
            for n, forms in ((1, [form]), (1, [form, '1I']), (2, ['1I', form]), (2, ['0QD', form, '1I', '3PE'])):
                naxis1 = taken + 2 * forms.count('1I')
                made.append(both('8: %s as column %d of %d, NAXIS1 %d' % (form, n, len(forms), naxis1),
                                 ended(table(forms, naxis1)) + bytes(naxis1), b'choose 9\nheap off\ncell\n',
                                 'refused 8 %d\n' % n))
    return made


def cells_told(row, column, values):
    return ''.join('cell %d %d %d %s\n' % (row, column, idx, value) for idx, value in enumerate(values.split()))


def three_each(texts):
    """The texts of four columns, three in each."""
    words = texts.split()
    return [' '.join(words[at:at + 3]) for at in range(0, 12, 3)]


def one_row(why, settings, columns, **keywords):
    """A table of one row. Each column is its form, the bytes of the field and the texts of its scaled values. They are
    read by a row read and then by cell reads."""
    forms, fields, texts = zip(*columns)
    lines = [line for c, of in enumerate(texts) for line in cells_told(0, c, of).splitlines(True)]
    count = len(lines)
    said = 'row %d\n%sat 1 0 %d\nseek 0\nat 0 0 %d\n' % (count, ''.join(lines), count, count)
    for passed, line in enumerate(lines, 1):
        place = '0 %d' % passed if passed < count else '1 0'
        said += '%sat %s %d\n' % (line, place, count + passed)
    steps = settings + b'row %d scaled\nseek 0\n' % count + b'cell scaled\n' * (count + 1)
    return case('scaled: ' + why, small(forms, [b''.join(fields)], keywords=keywords), steps, None,
                said + 'end\nat 1 0 %d\n' % (2 * count))


# the doubles of 0, 1, -1 and 2 to the 63rd, and the answer of every NaN
NONE, ONE, MINUS, K_ZERO, NAN = ('0000000000000000', '3ff0000000000000', 'bff0000000000000', '43e0000000000000',
                                 '7ff8000000000000')


WHOLE_FIELDS = [WHOLE_ROW[:3], WHOLE_ROW[3:9], WHOLE_ROW[9:21], WHOLE_ROW[21:]]


def scaled_value_cases():
    """What a scaled read makes of stored numbers."""
    shifted = list(zip(WHOLE_FORMS, WHOLE_FIELDS, three_each(SHIFTED)))
    # 128 is 4060000000000000 and 255 406fe00000000000; 32768 is 40e0000000000000
    plain = list(zip(WHOLE_FORMS, WHOLE_FIELDS, [
        NONE + ' 4060000000000000 406fe00000000000', 'c0e0000000000000 ' + NONE + ' 40dfffc000000000',
        'c1e0000000000000 ' + MINUS + ' 41dfffffffc00000', 'c3e0000000000000 ' + MINUS + ' ' + K_ZERO]))
    special = ' '.join(['7ff0000000000000 fff0000000000000', NONE] + [NAN] * 8)
    floats = [('11E', be(4, *FLOATS[:11]), special), ('11D', be(8, *DOUBLES[:11]), special),
              # the smallest above zero, 1.5 and -0.0
              ('3E', be(4, 1, 0x3FC00000, 2 ** 31), '36a0000000000000 3ff8000000000000 ' + NONE),
              ('2D', be(8, 1, 0x8000000000000001), '0000000000000001 8000000000000001')]
    given = {'%s%d' % (root, n): of for n in (1, 2, 3, 4) for root, of in (('TSCAL', '1'), ('TZERO', '-0'))}
    # 32768 with the factors 2 and -1; that of B, E and J; 128 of B; 2 to the 31st of I; -128 of D; less than 0 of K
    near = [('1I', be(2, -2 ** 15), 'c0e0000000000000'), ('1J', be(4, 0), '40e0000000000000'),
            ('1B', b'\0', '4060000000000000'), ('1E', be(4, 0), '40e0000000000000'),
            ('1I', be(2, 0), '41e0000000000000'), ('1K', be(8, 0), 'c3e0000000000000'),
            ('1D', be(8, 0), 'c060000000000000'), ('1I', be(2, 0), '40e0000000000000')]
    return [
        one_row('exact whole numbers', b'', shifted, **ZEROS),
        one_row('exact whole numbers, the factor 1 in some forms', b'heap off\n', shifted, TSCAL1='1.', TSCAL2='+1',
                TSCAL3='10E-1', TSCAL4='.1D1', **ZEROS),
        one_row('no keywords', b'choose all\n', plain + floats),
        one_row('the factor 1 and the zero 0 of whole numbers', b'', plain, **given),
        one_row('near the zeros of whole numbers', b'', near, TSCAL1='2', TZERO1='32768', TZERO2='32768', TZERO3='128',
                TZERO4='32768', TZERO5='2147483648', TZERO6='-9223372036854775808', TZERO7='-128', TSCAL8='-1',
                TZERO8='32768'),
        # 2 to the 53rd and 1 becomes 2 to the 53rd, and with 3 it becomes that with 4
        one_row('whole numbers between doubles', b'', [
            ('4K', be(8, 2 ** 53 + 1, 2 ** 53 + 3, 2 ** 63 - 1, -2 ** 53 - 1),
             '4340000000000000 4340000000000002 43e0000000000000 c340000000000000')], TSCAL1='1'),
        # rounded, 0.1 times 3 lies above 0.3 by 2 to the -54th; the exact product by half of that
        one_row('the product is rounded before the sum', b'', [('1B', b'\3', '3c90000000000000')], TSCAL1='0.1',
                TZERO1='-0.3'),
        # the largest double times 10 to the 22nd; the infinities times 0
        one_row('infinities that come and go', b'', [
            ('1D', be(8, DOUBLES[14]), '7ff0000000000000'), ('1D', be(8, DOUBLES[14] + 2 ** 63), 'fff0000000000000'),
            ('2E', be(4, FLOATS[0], FLOATS[1]), NAN + ' ' + NAN)], TSCAL1='1E22', TSCAL2='1E22', TSCAL3='0'),
    ]


def scaled_step_cases():
    """Scaled reads among other steps."""
    stored = [cells_told(0, c, of) for c, of in enumerate(three_each(STORED))]
    whole_file = small(WHOLE_FORMS, [WHOLE_ROW], keywords=ZEROS)
    # 10 is 4024000000000000, 7.5 401e000000000000, -0.5 bfe0000000000000, 9.5 4023000000000000
    ten, less, seven, half, nine = ('4024000000000000', 'c024000000000000', '401e000000000000', 'bfe0000000000000',
                                    '4023000000000000')
    mixed = small(['1PI', '1B', '1QE', '2A', '4L', '1C', '9X'],
                  [p(2, 0) + b'\x07' + q(1, 4) + b'abTF\0x' + be(4, 0x3F800000, 0x80000000) + b'\xa5\x80',
                   p(1, 2) + b'\x09' + q(2, 4) + b'cdTTTT' + bytes(10)], heap=be(2, 5, -5) + be(4, 0x3FC00000),
                  keywords={'TSCAL1': '2', 'TZERO2': '0.5', 'TSCAL3': '-1', 'TZERO3': '1'})
    others = ('cell 0 3 0 97\ncell 0 3 1 98\ncell 0 4 0 T\ncell 0 4 1 F\ncell 0 4 2 U\ncell 0 4 3 ?120\n'
              'cell 0 5 0 3f800000 80000000\ncell 0 6 0 165\ncell 0 6 1 128\n')
    followed = ('cell 0 0 0 %s\ncell 0 0 1 %s\ncell 0 1 0 %s\ncell 0 2 0 %s\n' % (ten, less, seven, half)) + others
    return [
        case('scaled and plain steps of one row', whole_file,
             b'cell scaled\ncell\ncell scaled\nrow 9\nseek 0\nrow 12\n', None,
             'cell 0 0 0 -128\nat 0 1 1\ncell 0 0 1 128\nat 0 2 2\ncell 0 0 2 127\nat 0 3 3\nrow 9\n'
             + ''.join(stored[1:]) + 'at 1 0 12\nseek 0\nat 0 0 12\nrow 12\n' + ''.join(stored) + 'at 1 0 24\n'),
        case('`cells` shows stored values', whole_file, b'', 'table 4 columns 1 rows 45 bytes\ncolumn 0 B 3 at 0 -\n'
             'column 1 I 3 at 3 -\ncolumn 2 J 3 at 9 -\ncolumn 3 K 3 at 21 -\n' + ''.join(stored) + 'end 12\n', ''),
        case('scaled: the line in other forms', GOOD_FILE, b'row 0002 scaled\nseek 0\ncell scaled\nrow 00 scaled\n'
             b'row 512 scaled\nrow 0 scaled\ncell scaled', EX,
             'row 2\ncell 0 0 0 %s\ncell 0 1 0 40bf400000000000\nat 1 0 2\nseek 0\nat 0 0 2\ncell 0 0 0 %s\nat 0 1 3\n'
             'refused 14 1\nat 0 1 3\nrow 1\ncell 0 1 0 40bf400000000000\nat 1 0 4\nrefused 14 2\nat 1 0 4\n'
             'cell 1 0 0 %s\nat 1 1 5\n' % (ONE, ONE, MINUS)),
        case('scaled: zeros in front of the N of a scaled row', GOOD_FILE, b'row ' + b'0' * 6000 + b'2 scaled\n', EX,
             'row 2\ncell 0 0 0 %s\ncell 0 1 0 40bf400000000000\nat 1 0 2\n' % ONE),
        # 9,361 lines of 7 bytes leave 9 of the 65,536; 5 more in front leave 4
        case('scaled: cut inside the word', GOOD_FILE, b'seek 0\n' * 9361 + b'cell scaled\n', EX,
             'seek 0\nat 0 0 0\n' * 9361 + 'bad line 9362\n'),
        case('scaled: cut before the word, so that it is a plain step', GOOD_FILE,
             b'seek 000000\n' + b'seek 0\n' * 9360 + b'cell scaled\n', EX,
             'seek 0\nat 0 0 0\n' * 9361 + 'cell 0 0 0 1\nat 0 1 1\n'),
        case('scaled: arrays, other types, 13 and 14', mixed,
             b'row 12 scaled\nrow 13 scaled\n' + b'cell scaled\n' * 3 + b'row 512 scaled\nrow 0 scaled\n', None,
             'refused 14 13\nat 0 0 0\nrow 13\n' + followed + 'at 1 0 13\ncell 1 0 0 %s\nat 1 1 14\ncell 1 1 0 %s\n'
             'at 1 2 15\nrefused 13 2\nat 1 2 15\nrefused 13 2\nat 1 2 15\nrefused 13 2\nat 1 2 15\n' % (less, nine)),
        case('scaled: the heap off', mixed, b'heap off\nrow 12 scaled\nchoose all\n', None,
             'row 12\ncell 0 0 0 2 0\ncell 0 1 0 %s\ncell 0 2 0 1 4\n' % seven + others + 'at 1 0 12\nbad line 3\n'),
        case('scaled: a choice', mixed, b'choose 2 1\nrow 2 scaled\ncell\ncell scaled\n', None,
             'row 2\ncell 0 1 0 %s\ncell 0 2 0 %s\nat 1 0 2\ncell 1 1 0 9\nat 1 1 3\nrefused 13 2\nat 1 1 3\n' % (
                 seven, half)),
        case('scaled: past the end', GOOD_FILE, b'seek 1\nrow 2 scaled\ncell scaled\nrow 0 scaled\nseek 2\n', EX,
             'seek 1\nat 1 0 0\nrow 2\ncell 1 0 0 %s\ncell 1 1 0 4045000000000000\nat 2 0 2\nend\nat 2 0 2\nend\n'
             'at 2 0 2\nrefused 12 2\nat 2 0 2\n' % MINUS),
    ]


def scaling_cases():
    """Refusal 16."""
    made = []
    for column, form in ((1, 'L'), (2, 'X'), (3, 'A'), (4, 'C'), (5, 'M'), (6, 'PA'), (7, '0QC')):
        made.append(both('16: %s with TZERO%d' % (form, column), small(
            ['1B'] * (column - 1) + [form] + ['1I'], [], keywords={'TZERO%d' % column: '1'}), b'cell scaled\n',
            'refused 16 %d\n' % column))
    for written in ('1e5', '', '.', "'1'", '1E23', '0E23', '1234567890123456', '9223372036854775808.', '1 1', '1E',
                    'T'):
        made.append(both('16: TSCAL2 of %r' % written, small(['1I', '1J'], [], keywords={'TSCAL2': written}),
                         b'bad\n', 'refused 16 2\n'))
    two = records_of(ended(table(['1I', '1J'], 6)))[:10]
    again = [keyword('TZERO2', '32768')] * 2
    return made + [
        both('16: TZERO2 twice', ended(two + again) + bytes(6), b'', 'refused 16 2\n'),
        both('3 before 16: TZERO2 and TTYPE2 twice', ended(two + again + [keyword('TTYPE2', '1')] * 2) + bytes(6), b'',
             'refused 3 13\n'),
        both('5 of TTYPE2 before 16', ended(two + again + [keyword('TTYPE2', '1')]) + bytes(6), b'', 'refused 5 12\n'),
        both('16 before 9 and 10', ended(changed('NAXIS1', '7', of=two) + again), b'', 'refused 16 2\n'),
        case('TSCAL3 and TZERO9 twice in a table of two columns', ended(
            two + [keyword('TSCAL3', 'x'), keyword('TZERO9', '')] * 2) + be(2, 1) + be(4, 2), b'cell scaled\n',
            'table 2 columns 1 rows 6 bytes\ncolumn 0 I 1 at 0 -\ncolumn 1 J 1 at 2 -\ncell 0 0 0 1\ncell 0 1 0 2\n'
            'end 2\n', 'cell 0 0 0 %s\nat 0 1 1\n' % ONE),
    ]


def missing_cases():
    """Missing values: what a column's null makes of its cells, in both readings and in `cells`."""
    columns = 'table 4 columns 1 rows 45 bytes\ncolumn 0 B 3 at 0 -\ncolumn 1 I 3 at 3 -\ncolumn 2 J 3 at 9 -\n' \
              'column 3 K 3 at 21 -\n'

    def whole(why, nulls, plain, scaled):
        said = [''.join(cells_told(0, c, of) for c, of in enumerate(three_each(values))) for values in (plain, scaled)]
        return case('missing: ' + why, small(WHOLE_FORMS, [WHOLE_ROW], keywords={**ZEROS, **nulls_of(*nulls)}),
                    b'row 12\nseek 0\nrow 12 scaled\n', columns + said[0] + 'end 12\n',
                    'row 12\n' + said[0] + 'at 1 0 12\nseek 0\nat 0 0 12\nrow 12\n' + said[1] + 'at 1 0 24\n')

    mixed = small(['1PI', '1B', '1QE', '2B', '1L'],
                  [p(3, 0) + b'\7' + q(1, 6) + b'\7\x08\0', p(2, 2) + b'\x08' + q(2, 6) + b'\x08\x09x'],
                  heap=be(2, 7, 8, -7) + be(4, 0x3FC00000), keywords={'TNULL1': '-7', 'TNULL2': '7', 'TNULL4': '+08'})
    first = ('cell 0 0 0 7\ncell 0 0 1 8\ncell 0 0 2 U\ncell 0 1 0 U\ncell 0 2 0 3fc00000\ncell 0 3 0 7\n'
             'cell 0 3 1 U\ncell 0 4 0 U\n')
    return [
        whole('the lowest numbers', ('0', '-32768', '-2147483648', '-9223372036854775808'),
              'U 128 255 U 0 32767 U -1 2147483647 U -1 9223372036854775807',
              'U 0 127 U 32768 65535 U 2147483647 4294967295 U 9223372036854775807 18446744073709551615'),
        whole('the highest numbers', ('255', '32767', '2147483647', '9223372036854775807'),
              '0 128 U -32768 0 U -2147483648 -1 U -9223372036854775808 -1 U',
              '-128 0 U 0 32768 U 0 2147483647 U 0 9223372036854775807 U'),
        whole('numbers that are none of the column', ('256', '40000', '2147483648', '9223372036854775808'), STORED,
              SHIFTED),
        whole('numbers of 19 digits, a sign, minus zero', ('0000000000000000128', '-0', '-0000000000000000001',
                                                          '-9999999999999999999'),
              '0 U 255 -32768 U 32767 -2147483648 U 2147483647 -9223372036854775808 -1 9223372036854775807',
              '-128 U 127 0 U 65535 0 U 4294967295 0 9223372036854775807 18446744073709551615'),
        case('missing: arrays, L beside, 13 and 14', mixed, b'row 7\nrow 8\ncell\ncell scaled\ncell\ncell\n',
             'table 5 columns 2 rows 28 bytes\ncolumn 0 P 1 at 0 -\ncolumn 1 B 1 at 8 -\ncolumn 2 Q 1 at 9 -\n'
             'column 3 B 2 at 25 -\ncolumn 4 L 1 at 27 -\n' + first + 'cell 1 0 0 8\ncell 1 0 1 U\ncell 1 1 0 8\n'
             'refused 13 2\n',
             'refused 14 8\nat 0 0 0\nrow 8\n' + first + 'at 1 0 8\ncell 1 0 0 8\nat 1 1 9\ncell 1 0 1 U\nat 1 2 10\n'
             'cell 1 1 0 8\nat 1 3 11\nrefused 13 2\nat 1 3 11\n'),
        case('missing: the heap off, a choice', mixed, b'heap off\nchoose 0 3\nrow 3\nrow 3 scaled\n', None,
             'row 3\ncell 0 0 0 3 0\ncell 0 3 0 7\ncell 0 3 1 U\nat 1 0 3\n'
             'row 3\ncell 1 0 0 2 2\ncell 1 3 0 U\ncell 1 3 1 4022000000000000\nat 2 0 6\n'),
    ]


def null_cases():
    """Refusal 17."""
    made = []
    for column, form in ((1, 'L'), (2, 'X'), (3, 'A'), (4, 'E'), (5, 'D'), (6, 'C'), (7, 'M'), (8, 'PE'), (9, '0QA')):
        made.append(both('17: %s with TNULL%d' % (form, column), small(
            ['1B'] * (column - 1) + [form] + ['1I'], [], keywords={'TNULL%d' % column: '1'}), b'cell\n',
            'refused 17 %d\n' % column))
    for written in ('1.', '', "'1'", '1E3', '00000000000000000001', '99999999999999999999', '-00000000000000000001',
                    '1 1', '- 1', '+-1', '1x'):
        made.append(both('17: TNULL2 of %r' % written, small(['1I', '1J'], [], keywords={'TNULL2': written}),
                         b'bad\n', 'refused 17 2\n'))
    two = records_of(ended(table(['1I', '1J'], 6)))[:10]
    again = [keyword('TNULL2', '-99')] * 2
    return made + [
        both('17: TNULL2 twice', ended(two + again) + bytes(6), b'', 'refused 17 2\n'),
        both('16 before 17 of the same n', ended(two + again + [keyword('TZERO2', '.')]) + bytes(6), b'',
             'refused 16 2\n'),
        both('17 before 16 of the next n', ended(two + [keyword('TZERO2', '.'), keyword('TNULL1', '.')]) + bytes(6),
             b'', 'refused 17 1\n'),
        both('17 before 9 and 10', ended(changed('NAXIS1', '7', of=two) + again), b'', 'refused 17 2\n'),
        case('TNULL3 and TNULL9 twice in a table of two columns', ended(
            two + [keyword('TNULL3', 'x'), keyword('TNULL9', '')] * 2 + [keyword('TNULL2', '2')]) + be(2, 1) + be(4, 2),
            b'cell\ncell scaled\n',
            'table 2 columns 1 rows 6 bytes\ncolumn 0 I 1 at 0 -\ncolumn 1 J 1 at 2 -\ncell 0 0 0 1\ncell 0 1 0 U\n'
            'end 2\n', 'cell 0 0 0 1\nat 0 1 1\ncell 0 1 0 U\nat 1 0 2\n'),
    ]


# Lines that are bad wherever they stand. A carriage return, a tab and byte 0 are bytes of their line.
BAD_LINES = [
    b'', b' ', b'x', b'Cell', b'CELL', b'cel', b'cells', b'cell ', b' cell', b'cell 1', b'cell\r', b'\rcell', b'cell\t',
    b'cell\0', b'\0', b'\xff', b'cell\xa0', b'end', b'at 0 0 0', b'# cell',
    b'row', b'row ', b'row  1', b' row 1', b'row 1 ', b'row 1 2', b'row 1\r', b'row x', b'row 1x', b'row x1', b'row -1',
    b'row +1', b'row 1.0', b'row 0x1', b'row\t1', b'row1', b'Row 1', b'row 513', b'row 0513', b'row 1000',
    b'row 4294967297', b'row 18446744073709551615', b'row 18446744073709551616', b'row 18446744073709551617',
    b'row all', b'row /', b'row :', b'row ' + b'0' * 90 + b'513',
    b'seek', b'seek ', b'seek  0', b'seek 0 ', b'seek 0 0', b'seek -0', b'seek +0', b'seek x', b'seek 0,', b'Seek 0',
    b'seek0', b'seek\t0', b'seek 0\r', b'seek 18446744073709551616', b'seek 18446744073709551617',
    b'seek 28446744073709551615', b'seek 99999999999999999999', b'seek 100000000000000000000',
    b'seek 184467440737095516150', b'seek 340282366920938463463374607431768211456', b'seek 000018446744073709551616',
    b'seek ' + b'9' * 300, b'seek 0\xb0',
    b'choose', b'choose ', b'choose x', b'choose  1', b'choose 1  0', b'choose 1 ', b'choose all ', b'choose all all',
    b'choose all 1', b'choose 1 all', b'choose ALL', b'Choose all', b'choose -1', b'choose 1,2', b'choose 1\r',
    b'choose 18446744073709551616', b'choose 0 18446744073709551616', b'choose 0 x', b'choose\t0', b' choose 0',
    b'chooseall', b'choose on', b'choose none', b'choose 0 1 2 3 4 5 6 7 8 9 ',
    b'scaled', b'cell  scaled', b'cell scaled ', b' cell scaled', b'cell scaled scaled', b'scaled cell', b'cell plain',
    b'cell Scaled', b'cell SCALED', b'cell scale', b'cell scaledx', b'cell xscaled', b'cellscaled', b'cell\tscaled',
    b'cell scaled\r', b'cell scaled\0', b'cell scaled 1', b'cell 1 scaled', b'cell scaled\xa0',
    b'row scaled', b'row scaled 3', b'scaled row 3', b'row  scaled', b'row 3  scaled', b'row 3 scaled ',
    b'row  3 scaled', b'row 3 scaled scaled', b'row 3 scaledx', b'row 3scaled', b'row 3 Scaled', b'row 3 plain',
    b'row 3 scaled 4', b'row 3 4 scaled', b'row x scaled', b'row -3 scaled', b'row 513 scaled', b'row 0513 scaled', b'row3 scaled',
    b'row 18446744073709551616 scaled', b'row 18446744073709551617 scaled', b'row 3\tscaled', b'row 3 scaled\r',
    b'seek scaled', b'seek 0 scaled', b'seek scaled 0', b'choose 0 scaled', b'choose all scaled', b'choose scaled',
    b'heap on scaled', b'heap scaled', b'scaled heap on', b'row ' + b'0' * 90 + b'513 scaled',
    b'heap', b'heap ', b'heap on ', b' heap on', b'heap  on', b'heap On', b'heap ON', b'Heap on', b'heap 1', b'heap of',
    b'heap offf', b'heap on off', b'heap on\r', b'heap\ton', b'heapon', b'heap all',
]

SETTING_LINES = [b'choose all', b'choose 0', b'choose 0 1', b'choose 9', b'heap on', b'heap off']


def line_cases():
    """Bad lines of every kind: as line 1, after settings, after a step, without a line feed."""
    made = []
    for bad in BAD_LINES:
        tail = rb'...%d bytes' % len(bad) if len(bad) > 40 else bad
        made += [
            case('bad line 1: %r' % tail, GOOD_FILE, bad + b'\ncell\n', EX, 'bad line 1\n'),
            case('after two settings: %r' % tail, GOOD_FILE, b'choose 1\nheap off\n' + bad + b'\n', EX, 'bad line 3\n'),
            case('after a step: %r' % tail, GOOD_FILE, b'cell\n' + bad + b'\ncell\n', EX,
                 'cell 0 0 0 1\nat 0 1 1\nbad line 2\n'),
        ]
        if bad:
            made.append(case('without a line feed: %r' % tail, GOOD_FILE, b'seek 1\n' + bad, EX,
                             'seek 1\nat 1 0 0\nbad line 2\n'))
    for setting in SETTING_LINES:
        made.append(case('a setting after a step: %r' % setting, GOOD_FILE,
                         b'heap on\nseek 9\n' + setting + b'\ncell\n', EX, 'refused 12 9\nat 0 0 0\nbad line 3\n'))
    return made


def step_cases():
    """Settings, numbers, ends of lines."""
    first, second = 'cell 0 0 0 1\n', 'cell 0 1 0 8000\n'
    full = b'heap on\nheap off\n' + b'cell\n' * 13103 + b'cell'
    assert len(full) == MOST
    cut = b'cell\n' * 13110
    in_number = b'choose 0\ncell\n' + b'row 0\n' * 10919 + b'seek 1\n'
    assert in_number.index(b'seek 1') + 6 == MOST - 2
    in_number = in_number[:-1] + b'2345\n'
    ends = 'end\nat 2 0 4\n'
    four = first + 'at 0 1 1\n' + second + 'at 1 0 2\ncell 1 0 0 -1\nat 1 1 3\ncell 1 1 0 42\nat 2 0 4\n'
    return [
        case('the example by cells, and past its end; the last line without a line feed', GOOD_FILE,
             b'cell\ncell\ncell\ncell\ncell\ncell', EX, four + ends * 2),
        case('an empty line at the end', GOOD_FILE, b'cell\n\n', EX, first + 'at 0 1 1\nbad line 2\n'),
        case('one line feed alone', GOOD_FILE, b'\n', EX, 'bad line 1\n'),
        case('settings alone', GOOD_FILE, b'choose 1\nheap off\n', EX, ''),
        case('settings alone, no line feed', GOOD_FILE, b'heap off\nchoose 1', EX, ''),
        case('settings alone, and the choice is refused', GOOD_FILE, b'choose 2', EX, 'refused 11 0\n'),
        case('the choice is refused before a bad line', GOOD_FILE, b'heap on\nchoose 2 3 4\nbad\n', EX,
             'refused 11 0\n'),
        case('the choice is refused before an empty line', GOOD_FILE, b'choose 18446744073709551615\n\n', EX,
             'refused 11 0\n'),
        case('a bad setting comes too late for the choice before it', GOOD_FILE, b'choose 2\nchoose 0 \n', EX,
             'refused 11 0\n'),
        case('settings repeated: the last one stands', GOOD_FILE,
             b'choose 9\nheap off\nchoose 0\nheap on\nchoose 1\nchoose 1\ncell\ncell\ncell\n', EX,
             second + 'at 1 0 1\ncell 1 1 0 42\nat 2 0 2\nend\nat 2 0 2\n'),
        case('all columns after a choice', GOOD_FILE, b'choose 1\nchoose all\nrow 2', EX,
             'row 2\n' + first + second + 'at 1 0 2\n'),
        case('a refused choice is replaced', GOOD_FILE, b'choose 7\nchoose all\ncell\n', EX, first + 'at 0 1 1\n'),
        case('indexes repeated, descending, unknown, with zeros in front', GOOD_FILE,
             b'choose 18446744073709551615 1 001 9 0 1 4294967296\nrow 2\n', EX,
             'row 2\n' + first + second + 'at 1 0 2\n'),
        case('indexes that are 0 or 1 if cut to 32 bits', GOOD_FILE, b'choose 4294967296 4294967297\ncell\n', EX,
             'refused 11 0\n'),
        case('a choice of 5,000 indexes', GOOD_FILE, b'choose' + b' 1' * 5000 + b'\ncell\n', EX, second + 'at 1 0 1\n'),
        case('5,000 unknown indexes before a known one', GOOD_FILE, b'choose' + b' 9' * 5000 + b' 0\nrow 1\n', EX,
             'row 1\n' + first + 'at 1 0 1\n'),
        case('a choice of 32,764 indexes, which leaves 2 bytes', GOOD_FILE, b'choose' + b' 1' * 32764 + b'\ncell\n', EX,
             'bad line 2\n'),
        case('a choice that is cut: 32,765 indexes and no more', GOOD_FILE, b'choose' + b' 1' * 40000 + b'\ncell\n', EX,
             ''),
        case('8,000 settings', GOOD_FILE, b'heap on\n' * 8000 + b'cell\n', EX, first + 'at 0 1 1\n'),
        case('8,000 settings and an empty line', GOOD_FILE, b'heap on\n' * 8000 + b'\ncell\n', EX, 'bad line 8001\n'),
        case('65,536 line feeds', GOOD_FILE, b'\n' * 65536, EX, 'bad line 1\n'),
        case('heap on, then off, over a table with arrays', small(['1PB'], [p(2, 1)], heap=b'\7\x08\x09'),
             b'heap on\nheap off\ncell\n', None, 'cell 0 0 0 2 1\nat 1 0 1\n'),
        case('heap off, then on', small(['1PB'], [p(2, 1)], heap=b'\7\x08\x09'), b'heap off\nheap on\nrow 2\n', None,
             'row 2\ncell 0 0 0 8\ncell 0 0 1 9\nat 1 0 2\n'),
        case('zeros in front', GOOD_FILE, b'seek 0000000000000000000000001\nrow 0512\nrow 000\nseek 00\n', EX,
             'seek 1\nat 1 0 0\nrow 2\ncell 1 0 0 -1\ncell 1 1 0 42\nat 2 0 2\nend\nat 2 0 2\nseek 0\nat 0 0 2\n'),
        case('6,000 zeros in front', GOOD_FILE, b'seek ' + b'0' * 6000 + b'1\nrow ' + b'0' * 6000 + b'2\n', EX,
             'seek 1\nat 1 0 0\nrow 2\ncell 1 0 0 -1\ncell 1 1 0 42\nat 2 0 2\n'),
        case('the largest number, and one more', GOOD_FILE,
             b'seek 18446744073709551615\nseek 018446744073709551615\nseek 18446744073709551616\ncell\n', EX,
             'refused 12 18446744073709551615\nat 0 0 0\nrefused 12 18446744073709551615\nat 0 0 0\nbad line 3\n'),
        case('numbers near powers of 2 and 10', GOOD_FILE,
             b'seek 4294967296\nseek 4294967297\nseek 9223372036854775808\nseek 10000000000000000000\n'
             b'seek 18446744073709551609\nseek 20000000000000000000\n', EX,
             'refused 12 4294967296\nat 0 0 0\nrefused 12 4294967297\nat 0 0 0\nrefused 12 9223372036854775808\n'
             'at 0 0 0\nrefused 12 10000000000000000000\nat 0 0 0\nrefused 12 18446744073709551609\nat 0 0 0\n'
             'bad line 6\n'),
        case('row 512 is a step, row 513 is not', GOOD_FILE, b'row 512\nrow 513\n', EX,
             'row 2\n' + first + second + 'at 1 0 2\nbad line 2\n'),
        case('a row read of the rest, refused and repeated', GOOD_FILE,
             b'cell\nrow 0\nrow 1\nrow 1\nrow 2\nrow 0\n', EX,
             first + 'at 0 1 1\nrefused 14 1\nat 0 1 1\nrow 1\n' + second + 'at 1 0 2\nrefused 14 2\nat 1 0 2\n'
             'row 2\ncell 1 0 0 -1\ncell 1 1 0 42\nat 2 0 4\nend\nat 2 0 4\n'),
        case('a seek leaves the count', GOOD_FILE, b'cell\nseek 1\ncell\nseek 0\nrow 2\nseek 2\n', EX,
             first + 'at 0 1 1\nseek 1\nat 1 0 1\ncell 1 0 0 -1\nat 1 1 2\nseek 0\nat 0 0 2\nrow 2\n' + first + second
             + 'at 1 0 4\nrefused 12 2\nat 1 0 4\n'),
        case('65,536 bytes of steps, the last line without a line feed', GOOD_FILE, full, EX, four + ends * 13100),
        case('the same with bytes behind them', GOOD_FILE, full + b's\n', EX, four + ends * 13100),
        case('steps cut inside a word', GOOD_FILE, cut, EX, four + ends * 13103 + 'bad line 13108\n'),
        case('steps cut inside a number', GOOD_FILE, in_number, EX,
             'cell 0 0 0 1\nat 1 0 1\n' + 'refused 14 1\nat 1 0 1\n' * 10919 + 'refused 12 123\nat 1 0 1\n'),
        case('65,536 bytes in one line', GOOD_FILE, b'x' * 70000, EX, 'bad line 1\n'),
        case('a number of 65,531 digits', GOOD_FILE, b'seek ' + b'0' * 65530 + b'1234', EX, 'seek 1\nat 1 0 0\n'),
    ]


def named():
    return (file_cases() + refusal_cases() + table_cases() + empty_field_cases() + above_one_cases() + line_cases()
            + step_cases() + scaled_value_cases() + scaled_step_cases() + scaling_cases() + missing_cases()
            + null_cases())


# ---- random cases ----


def random_name(rng):
    size = rng.choice([0, 1, 2, 5, 8, 20, 34])
    parts = rng.choice([[b'A', b'b', b'9', b'_'], [b'A', b' ', b"''", b'/', b'-'],
                        [bytes([byte]) for byte in range(256) if byte != 39]])
    return b''.join(rng.choice(parts) for _ in range(size))


def random_cards(rng, header):
    """The records of a header with names for some columns, remarks, and now and then in another order."""
    cards = records_of(header)[:end_of(header)]
    columns = sum(card.startswith(b'TFORM') for card in cards)
    for n in range(1, columns + 1):
        if rng.randrange(4):
            cards.insert(rng.randrange(8, len(cards) + 1), keyword('TTYPE%d' % n, quoted(random_name(rng))))
    for _ in range(rng.choice([0, 0, 0, 1, 5, 40, 600] if rng.randrange(8) == 0 else [0, 1])):
        remark = rng.choice([record(''), record('COMMENT END'), keyword('TUNIT1', "'g'")])
        cards.insert(rng.randrange(1, len(cards) + 1), remark)
    if rng.randrange(6) == 0:
        rng.shuffle(cards)
    return cards


VALUES = ['', '0', '-1', '1', '2', '3', '8', '65', '999', '1000', '1048577', '16777217', '2147483648', '9' * 19, "'8'",
          "'BINTABLE'", "'IMAGE'", "'3Z'", "' 1E'", "'1I'", "'PZ'", "'8388609A'", "'it's'", 'T', "'0PE'", "'0QX'",
          "'2PE'", "'2QD'", "'1PB'", '0.5', '-1.5E3', '1e3', '1E23', '32768', '9223372036854775808', '1234567890123456']


def spoiled(rng, cards):
    """The records with one fault or more, most of them refused."""
    cards = list(cards)
    for _ in range(rng.choice([1, 1, 2])):
        at, kind = rng.randrange(len(cards)), rng.randrange(6)
        if kind == 0:
            del cards[at]
        elif kind == 1:
            cards.insert(rng.randrange(len(cards) + 1), cards[at])
        elif kind == 2:
            cards[at] = cards[at][:10] + text(rng.choice(VALUES)).ljust(70)
        elif kind == 3:
            place = rng.randrange(24)
            cards[at] = cards[at][:place] + bytes([rng.randrange(256)]) + cards[at][place + 1:]
        elif kind == 4:
            name = '%s%d' % (rng.choice(['TSCAL', 'TZERO', 'TNULL']), rng.choice([1, 1, 2, 3, 9]))
            cards.insert(rng.randrange(len(cards) + 1), keyword(name, rng.choice(VALUES)))
        else:
            cards[at] = cards[at][:10] + text('%d' % rng.randrange(-2, 40)).ljust(70)
    return cards


def random_file(rng, one):
    cards = random_cards(rng, one.header)
    if rng.randrange(4) == 0:
        cards = spoiled(rng, cards)
    file = ended(cards) + one.area
    if rng.randrange(40) == 0:
        file = padded(cards) + one.area[:rng.choice([0, len(one.area)])]
    if rng.randrange(25) == 0:
        file = file[:rng.choice([rng.randrange(len(file) + 1), len(file) - 1, len(file) - RECORD])]
    return file + bytes(rng.choice([0, 0, 0, 7, 2880, 70000 if rng.randrange(9) == 0 else 1]))


def zeros(rng, number):
    return rng.choice([b'', b'', b'', b'0', b'000']) + b'%d' % number


def random_settings(rng, one):
    made = []
    for _ in range(rng.choice([0, 0, 1, 1, 2, 3])):
        made.append(rng.choice(SETTING_LINES))
    if one.indexes:
        made.append(b' '.join([b'choose'] + [zeros(rng, index) for index in one.indexes]))
    if not one.heap:
        made.append(b'heap off')
    return made


def random_lines(rng, one):
    made = []
    for step in one.steps:
        number = zeros(rng, step.row)
        line = {READ: b'cell', SEEK: b'seek ' + number, ROW: b'row ' + number}.get(step.kind)
        made += [line + b' scaled' * step.scaled] * step.times if line else []
    return made


def random_steps(rng, one):
    """The steps of a case as lines, with a bad line or a late setting now and then; or bytes of any kind."""
    lines = random_settings(rng, one) + random_lines(rng, one)
    kind = rng.randrange(12)
    if kind < 3:
        lines.insert(rng.randrange(len(lines) + 1), rng.choice(BAD_LINES + SETTING_LINES * 5))
    steps = b'\n'.join(lines) + rng.choice([b'\n', b'\n', b'', b'\n\n' if rng.randrange(4) == 0 else b'\n'])
    if kind == 3 and steps:
        at = rng.randrange(len(steps))
        steps = steps[:at] + bytes([rng.choice([0, 10, 10, 13, 32, 48, 57, 97, 255])]) + steps[at + rng.randrange(2):]
    if kind == 4:
        steps *= rng.choice([2, 3, 400])
    return steps


def random_one(seed):
    rng = random.Random(seed)
    one = random_case(rng)
    return case('seed %d' % seed, None if rng.randrange(300) == 0 else random_file(rng, one),
                None if rng.randrange(60) == 0 else random_steps(rng, one))


# ---- running the programs ----


def texts_of(one):
    return cells_text(one.table or b''), replay_text(one.table or b'', one.steps or b'')


def run(program, folder):
    """What a program prints in a folder, and how it ended if not well."""
    try:
        done = subprocess.run([program], cwd=folder, stdin=subprocess.DEVNULL, capture_output=True, timeout=120)
    except subprocess.TimeoutExpired as late:
        return (late.stdout or b'') + b'(stopped after 120 seconds)'
    ending = b'' if done.returncode == 0 else b'(status %d) ' % done.returncode + done.stderr
    return done.stdout + ending


def shortened(said, other):
    """A text with its lines marked; of a long one the lines around the first that differs."""
    lines, others = said.split(b'\n'), other.split(b'\n')
    at = next((k for k, pair in enumerate(zip(lines, others)) if pair[0] != pair[1]), min(len(lines), len(others)))
    first, last = (0, len(lines)) if len(lines) <= 60 else (max(0, at - 12), at + 12)
    shown = ['  %d: %s' % (k + 1, ascii(line.decode('latin-1'))[1:-1]) for k, line in enumerate(lines)]
    return '\n'.join(shown[first:last])


def differs(one, word, said, expected, folder):
    print('%s differs: %s' % (word, one.why))
    print('expected (%d bytes):\n%s' % (len(expected), shortened(expected, said)))
    print('printed (%d bytes):\n%s' % (len(said), shortened(said, expected)))
    print('its files are in %s' % folder)


def placed(one, folder):
    for name, content in (('table.fits', one.table), ('steps.txt', one.steps)):
        path = os.path.join(folder, name)
        if os.path.exists(path):
            os.remove(path)
        if content is not None:
            with open(path, 'wb') as file:
                file.write(content)


def check(programs, seeds):
    programs = [os.path.abspath(program) for program in programs]
    for program in programs:
        if not os.access(program, os.X_OK):
            sys.exit('no program at %s' % program)
    folder, count, numbers = tempfile.mkdtemp(), 0, collections.Counter()
    example = case("the request's example", EXAMPLE, None, EXAMPLE_TEXT, b'')
    for one in [example] + named() + [random_one(seed) for seed in seeds]:
        placed(one, folder)
        count += 1
        for word, program, expected in zip(('cells', 'replay'), programs, texts_of(one)):
            numbers.update(re.findall(rb'^(?:refused \d+|bad|end|row|seek|cell)', expected, re.MULTILINE))
            said = run(program, folder)
            if said != expected:
                differs(one, word, said, expected, folder)
                print('%d cases, the last one differs' % count)
                return 1
    placed(case('', None, None), folder)
    os.rmdir(folder)
    print(', '.join('%s %d' % (key.decode('ascii'), numbers[key]) for key in sorted(numbers)), file=sys.stderr)
    print('%d cases, 0 differ' % count)
    return 0


# ---- the reader's own check ----


def walked(file):
    """`cells` by the plain walk, a cell read after the other."""
    header, area = parted(file)
    layout = layout_of(header, len(area))
    lines = layout_lines(layout, header)
    try:
        walk = Walk(layout, area, None, True)
        for cell in iter(lambda: walk.next(area), None):
            lines.append(cell_line(cell))
        lines.append(b'end %d' % walk.count)
    except Refused as refusal:
        lines.append(refused_line(refusal))
    return printed(lines)


def self_check():
    """The texts by hand are what the functions above say; small tables are the same by the plain walk."""
    cases = named()
    assert len({one.why for one in cases}) == len(cases)
    for one in cases:
        for word, by_hand, said in zip(('cells', 'replay'), (one.cells, one.replay), texts_of(one)):
            assert by_hand in (None, said), '%s, %s: %r' % (word, one.why, said[:400])
    assert cells_text(EXAMPLE) == EXAMPLE_TEXT
    for one in table_cases() + empty_field_cases():
        if not one.why.startswith('16,777,216 rows'):
            assert walked(one.table) == cells_text(one.table), one.why
    for crate in BUNDLES:
        file = BUNDLES[crate]()['data/table.fits']
        assert len(file) % BLOCK == 0 and header_length(file) % BLOCK == 0


USAGE = 'usage: tests/listing.py make | tests/listing.py check CELLS REPLAY [--seeds A B]'


def main(words):
    if words == ['make']:
        self_check()
        make()
        return 0
    seeds = ['0', '999']
    if len(words) == 6 and words[3] == '--seeds':
        words, seeds = words[:3], words[4:]
    if len(words) != 3 or words[0] != 'check' or not all(seed.isdigit() for seed in seeds):
        print(USAGE, file=sys.stderr)
        return 2
    self_check()
    return check(words[1:], range(int(seeds[0]), int(seeds[1]) + 1))


if __name__ == '__main__':
    sys.exit(main(sys.argv[1:]))
