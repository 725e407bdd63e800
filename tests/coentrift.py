#!/usr/bin/env python3
"""What the program `coentrift` must write, the table in its data/, and cases to run it on.

From the repository's root:

    tests/coentrift.py make
        writes args, data/ and stdout of crates/coentrift
    tests/coentrift.py check PROGRAM [--seeds A B]
        runs the built program, crates/coentrift/out/coentrift, on every case below and on random ones, one for each
        number from A to B (0 to 999 if not given)

`check` prints `N cases, 0 differ`; or the first case that differs, and ends with status 1. A case is the words after
the program's name and, in a folder of its own, the file that they name. Standard output, standard error and the status
must be what `printed` says, and the folder must be left as it was. What `turn` or `turn-back` makes of a table is
given to the program again, with the other one, and must come back.

`turned` and `turned_back` were written from the rule, byte p of row r goes to p x NAXIS2 + r and the bytes after
NAXIS1 x NAXIS2 stay, and not from the program; so was `page`, from the request's rules and the exact value of each
float, a fraction. The tables are read by layout_cases.py, which was written from the request too. The words of the
refusals are stated here again, and wrappers/words.sh must say the same of each case, but for 14 and 15, whose words
are those of a page alone. profile_pages.py runs `page` on many floats.
"""
import collections
import functools
import itertools
import math
import os
import random
import re
import shutil
import struct
import subprocess
import sys
import tempfile
from fractions import Fraction

sys.dont_write_bytecode = True

import layout_cases
import listing
import table_cases
from header_cases import BLOCK, END, GOOD, end_of, ended, header_length, keyword, name_of, padded, record, records_of
from header_cases import text
from layout_cases import SIZES, TABLE_NAMES, Refused, changed, doubled, find, form_of, inserted, layout_of, noted_name
from layout_cases import single, table, without
from listing import GOOD_FILE, column_records, fixed, layout_lines, longest, number_of, required

LIMIT = 2097152
ROOM = 4194304
MOST_ARGUMENT = 4095
ROOT = os.path.join(os.path.dirname(os.path.abspath(__file__)), '..')
WORDS = os.path.join(ROOT, 'wrappers', 'words.sh')

# ---- what is written ----

Printed = collections.namedtuple('Printed', 'out err status')

USAGE = b'''\
usage: coentrift turn TABLE
       coentrift turn-back TABLE
       coentrift page TABLE COLUMN ROW EDITION

turn and turn-back write to standard output the header of TABLE as it is, then its
data. turn puts byte p of row r, both counted from 0, at p x NAXIS2 + r, and leaves
the bytes after the last row as they are; turn-back takes such a file and puts each
byte back.

page writes a line for each item of a column of form E in one row: ROW, the item's
index and its weight, with one decimal in EDITION 1 and two in EDITION 2. Ten stars
stand for an infinity, a NaN and what takes more than ten places. COLUMN is an index
if it is all digits, else a name, of which Weight and WEIGHT are the same. Rows,
columns and items are counted from 0.

TABLE is the file of a binary table extension alone, its header and then its data,
of 2,097,152 bytes at most. One that cannot be read counts as empty. An argument has
at most 4,095 bytes, and a subcommand is in small letters. docs/FORMAT.md, sections 18
to 20, says more.

Status: 0 all was written; 1 the table or the page was refused, or TABLE is too long,
and standard error says why; 2 the arguments are wrong, memory is lacking, or the
output cannot be written; 141 whoever read the output has closed it.
'''


def turned(rows, width, area):
    made = bytearray(area)
    for p in range(width):
        for r in range(rows):
            made[p * rows + r] = area[r * width + p]
    return bytes(made)


def turned_back(rows, width, area):
    made = bytearray(area)
    for p in range(width):
        for r in range(rows):
            made[r * width + p] = area[p * rows + r]
    return bytes(made)


WAYS = {b'turn': turned, b'turn-back': turned_back}
OTHER = {b'turn': b'turn-back', b'turn-back': b'turn'}

# how many words each subcommand takes
WORDS_OF = {b'turn': 1, b'turn-back': 1, b'page': 4}

# ---- a page ----

DECIMALS = {1: 1, 2: 2}
STARS = b'**********'

NO_EDITION = 'there is no edition but 1 and 2'
NO_COLUMN = 'the table has no such column'
NO_E = 'the column is not of form E (PE is another form)'
SCALED = 'the column has TSCALn or TZEROn, and such a column has no page'


def nearest(size, edition):
    """A fraction to the nearest whole number: a half up in edition 1, to the even one in edition 2."""
    below = size.numerator // size.denominator
    rest, half = size - below, Fraction(1, 2)
    if rest == half:
        return below + 1 if edition == 1 else below + below % 2
    return below + 1 if rest > half else below


@functools.lru_cache(maxsize=500000)
def weight_text(stored, edition):
    """The text of a float's four bytes."""
    value = struct.unpack('>f', stored)[0]
    if math.isnan(value) or math.isinf(value):
        return STARS
    # the exact value
    value, one = Fraction(value), 10 ** DECIMALS[edition]
    units = nearest(abs(value) * one, edition)
    minus = b'-' if value < 0 and units > 0 else b''
    made = minus + b'%d.' % (units // one) + (b'%d' % (units % one)).rjust(DECIMALS[edition], b'0')
    return STARS if len(made) > 10 else made


def page_line(row, idx, weight):
    return b' '.join([(b'%d' % row).rjust(8), (b'%d' % idx).rjust(6), weight.rjust(10)]) + b'\n'


def column_by(word, layout, header):
    """The index that a word says: that of digits, or that of the first column of such a name, or None."""
    return number_of(word) if is_digits(word) else find(layout, header, word)


def page(layout, header, area, words):
    """The page of a column, a row and an edition; or a refusal raised, 15 with its words."""
    index, row, edition = column_by(words[0], layout, header), number_of(words[1]), number_of(words[2])
    if edition not in DECIMALS:
        raise Refused(15, 0, NO_EDITION)
    if index is None or index >= len(layout.columns):
        raise Refused(15, 0, NO_COLUMN)
    column = layout.columns[index]
    if column.form != 'E':
        raise Refused(15, 0, NO_E)
    if column.scaling is not None:
        raise Refused(15, 0, SCALED)
    if row >= layout.rows:
        raise Refused(12, row)
    if 27 * column.count > ROOM:
        raise Refused(14, 27 * column.count)
    starts = [row * layout.naxis1 + column.start + 4 * i for i in range(column.count)]
    return b''.join(page_line(row, i, weight_text(area[at:at + 4], edition)) for i, at in enumerate(starts))


# ---- refusals in words ----

TEXTS = {
    1: 'the length of the header is above 57,600 or no multiple of 2,880 bytes; a file without END is all header',
    2: 'no record is END, so the header has no end',
    3: '{name} stands a second time, in record {place}, counted from 0',
    4: '{missing} is missing',
    5: 'the value of {name}, in record {place}, counted from 0, is no {kind} that can be read',
    6: 'the value of {name}, in record {place}, counted from 0, is not allowed: {wanted}',
    7: 'the value of {name}, in record {place}, counted from 0, is above the limit of this reader, {limit:,}',
    8: 'TFORM{place} is no form that can be read: a form is a count of 8,388,608 at most, or none, and a letter of '
       'L X B A I J E K D C M; or a count of 0 or 1, or none, then P or Q and then one of these letters',
    9: 'the bytes of the columns do not add up to NAXIS1; a field of P or Q with count 0 takes none',
    10: 'the file is shorter than its header says: the data need NAXIS1 x NAXIS2 + PCOUNT bytes',
    12: 'row {place}, counted from 0, is no row of the table',
    14: 'the page takes {place} bytes, 27 a line, and there is room for 155,344 lines',
    16: 'TSCAL{place} or TZERO{place} is not a number that this reader takes, is given twice, or stands at a column '
        'whose type has no scaling: those of B, I, J, K, E and D have one',
    17: 'TNULL{place} is not an integer of at most 19 digits, is given twice, or stands at a column whose type has no '
        'missing values: those of B, I, J and K have them',
}
EMPTY = 'the file is empty'
WHOLE = ('; this looks like a whole FITS file, whose table is an extension: cut off what stands before it '
         '(README says how)')
WANTED = {
    'XTENSION': "'BINTABLE' is wanted", 'BITPIX': '8 is wanted', 'NAXIS': '2 is wanted', 'GCOUNT': '1 is wanted',
    'TFIELDS': 'it must be from 0 to 999', 'THEAP': 'it must be from NAXIS1 x NAXIS2 to NAXIS1 x NAXIS2 + PCOUNT',
    'NAXIS1': 'it must not be negative', 'NAXIS2': 'it must not be negative', 'PCOUNT': 'it must not be negative',
}


def missing_name(file, place):
    """TFORMn, or the first required name that no record before END has."""
    if place > 0:
        return 'TFORM%d' % place
    names = [name_of(card) for card in records_of(file)[:end_of(file)]]
    return next(name for name in TABLE_NAMES[:8] if text(name) not in names)


def facts(number, place, file):
    """What the text of a number is filled in with."""
    if number == 4:
        return {'missing': missing_name(file, place)}
    if number not in (3, 5, 6, 7):
        return {'place': place}
    name = name_of(records_of(file)[place]).decode('ascii')
    kind = 'string' if re.match('XTENSION|TFORM|TTYPE', name) else 'integer'
    limit = SIZES[name][1] if name in SIZES else 0
    return {'place': place, 'name': name, 'kind': kind, 'wanted': WANTED.get(name), 'limit': limit}


def words_of(number, place, file):
    """A refusal in words."""
    made = EMPTY if number == 1 and file == b'' else TEXTS[number].format(**facts(number, place, file))
    return text(made + (WHOLE if number <= 4 and file[:10] == b'SIMPLE  = ' else ''))


def is_utf8(name):
    try:
        name.decode('utf-8')
    except UnicodeDecodeError:
        return False
    return True


def refused_with(number, place, own=None, file=b'', said=b''):
    """What a refusal prints, in words of its own or in those of its number."""
    line = b'refused %d %d' % (number, place)
    words = text(own) if own else words_of(number, place, file)
    return Printed(line + b'\n', said + b'coentrift: ' + line + b': ' + words + b'\n', 1)


def shown(name):
    return b"'%s'" % name


def made_of(words, file):
    """What is made of a file, or a refusal raised: the entry's first."""
    end = header_length(file)
    layout = layout_of(file[:end], len(file) - end)
    if words[0] in WAYS:
        return file[:end] + WAYS[words[0]](layout.rows, layout.naxis1, file[end:])
    return page(layout, file[:end], file[end:], words[2:])


def refusal_of(words, file):
    """The number and the place of a refusal, and for 15 its words; or None."""
    try:
        made_of(words, file)
    except Refused as refusal:
        return refusal.args
    return None


def as_read(words, file):
    """The file that the words name as it can be read: None for a missing one, and for a name that is not UTF-8."""
    return file if is_utf8(words[1]) else None


def is_digits(word):
    return re.fullmatch(rb'[0-9]+', word) is not None


def is_page(column, row, edition):
    """Row and edition are digits that say a number below 2 to the 64th, and so is a column of digits only."""
    numbers = [row, edition] + ([column] if is_digits(column) else [])
    return all(number_of(word) is not None for word in numbers)


def is_usage(words):
    if not words or len(words) - 1 != WORDS_OF.get(words[0]) or any(len(word) > MOST_ARGUMENT for word in words):
        return True
    return words[0] == b'page' and not is_page(*words[2:])


def printed(words, file):
    """What a run must write, of the words after the program's name and the file that they name, or None."""
    if is_usage(words):
        return Printed(b'', USAGE, 2)
    name, file, said = words[1], as_read(words, file), b''
    if file is None:
        file, said = b'', b'coentrift: cannot read %s, which counts as empty\n' % shown(name)
    if len(file) > LIMIT:
        return Printed(b'', b'coentrift: %s is longer than 2,097,152 bytes\n' % shown(name), 1)
    try:
        return Printed(made_of(words, file), b'', 0)
    except Refused as refusal:
        return refused_with(*refusal.args, file=file, said=said)


# ---- the table in data/ ----

# Four rows of 13 bytes: an integer, three bytes, and the count and the offset of an array of bytes. The first digit of
# a byte of RAW is the number of its row and one, the second its place among the three.
ROWS = '''
0001 101112 00000002 00000000
ffff 202122 00000000 000f423f
1f40 303132 00000003 00000002
8000 404142 00000001 00000004
'''

# A gap of two bytes before the heap, and its five bytes.
HEAP = 'dead a0a1a2a3a4'
AFTER = b'after the data'

# What the reader says of it.
READ = b'''\
table 3 columns 4 rows 13 bytes
column 0 I 1 at 0 POS
column 1 B 3 at 2 RAW
column 2 P 1 at 5 ARRAY
'''

# Its rows turned: a line for each place, with the bytes of the four rows there.
TURNED = '''
00 ff 1f 80
01 ff 40 00
10 20 30 40
11 21 31 41
12 22 32 42
00 00 00 00
00 00 00 00
00 00 00 00
02 00 03 01
00 00 00 00
00 0f 00 00
00 42 00 00
00 3f 02 04
'''


def shown_header():
    records = required(13, 4, 7, 3) + column_records(['1I', '3B', '1PB(3)'], ['POS', 'RAW', 'ARRAY'])
    return ended(records + [fixed('THEAP', 54, 'the heap begins after a gap')])


def shown_file(rows):
    made = shown_header() + bytes.fromhex(rows) + bytes.fromhex(HEAP) + AFTER
    return made + bytes(-len(made) % BLOCK)


def make():
    crate = os.path.join(ROOT, 'crates', 'coentrift')
    os.makedirs(os.path.join(crate, 'data'), exist_ok=True)
    for name, content in (('args', b'turn\narchive.fits\n'), ('data/archive.fits', shown_file(ROWS)),
                          ('data/profile.fits', readme_file()), ('stdout', shown_file(TURNED))):
        with open(os.path.join(crate, name), 'wb') as file:
            file.write(content)
        print('crates/coentrift/%s: %d bytes' % (name, len(content)), file=sys.stderr)


# ---- cases by name ----

# `said` is worked out by hand, or None where it is long.
Case = collections.namedtuple('Case', 'why words file said')


def ways(why, file, said=None, name=b'table.fits'):
    """A case for turn and one for turn-back, of which by hand they write the same."""
    return [Case('%s: %s' % (way.decode('ascii'), why), [way, name], file, said) for way in WAYS]


def paged(why, file, words, said=None, name=b'table.fits'):
    """A page of a column, a row and an edition."""
    return Case('page: ' + why, [b'page', name] + [text(word) for word in words], file, said)


def all_ways(why, file, said, name=b'table.fits'):
    """A case for each subcommand, all of which write the same; the page would be refused of any table."""
    return ways(why, file, said, name) + [paged(why, file, ['999', '18446744073709551615', '3'], said, name)]


def refused(why, file, number, place):
    """A refusal of the entry, its number and its place by hand."""
    return all_ways(why, file, refused_with(number, place, file=file))


def seeded(why, length):
    return random.Random(why).randbytes(length)


def sized(rows, width, heap=0, after=0):
    """A file of a table of so many rows and places, whose bytes are of all kinds."""
    header = ended(table(['%dB' % width], width, rows=rows, pcount=heap))
    return header + seeded('%d %d %d %d' % (rows, width, heap, after), rows * width + heap + after)


# Rows and places, the rows in hex as they are and turned, and what follows them.
BY_HAND = [
    (2, 3, '0a0b0c 1a1b1c', '0a1a 0b1b 0c1c', ''),
    (3, 2, '0a0b 1a1b 2a2b', '0a1a2a 0b1b2b', 'ff'),
    (2, 2, '0a0b 1a1b', '0a1a 0b1b', ''),
    (1, 4, '0a0b0c0d', '0a 0b 0c 0d', '0102'),
    (4, 1, '0a 1a 2a 3a', '0a1a2a3a', '0102'),
    (0, 2, '', '', '0a0b0c0d'),
    (2, 0, '', '', '0a0b0c0d'),
]


def hand_cases():
    pairs = [(shown_file(ROWS), shown_file(TURNED))]
    for rows, width, *areas, after in BY_HAND:
        header = ended(table(['%dB' % width], width, rows=rows))
        pairs.append([header + bytes.fromhex(area + after) for area in areas])
    made = []
    for first, other in pairs:
        made.append(Case('turn by hand', [b'turn', b'table.fits'], first, Printed(other, b'', 0)))
        made.append(Case('turn-back by hand', [b'turn-back', b'table.fits'], other, Printed(first, b'', 0)))
    return made


def size_cases():
    """Rows and places: few of each, near powers of 2, and many of either."""
    few, near, narrow = range(7), [15, 16, 17, 63, 64, 65, 255, 256, 257], [1, 2, 3]
    made = []
    for some, others in ((few, few), (near, near), (narrow, near), (near, narrow)):
        for rows, width in itertools.product(some, others):
            file = sized(rows, width, heap=5 * (rows % 2), after=width % 3)
            made += ways('%d rows of %d' % (rows, width), file)
    for of in [(2, 5000, 0, 0), (5000, 2, 0, 0), (3, 20001, 7, 1), (20001, 3, 1, 7), (1, 65536, 0, 0),
               (65536, 1, 0, 0), (511, 129, 0, 0), (512, 128, 3, 0), (513, 127, 0, 3), (127, 513, 1, 1),
               (4, 4, 1000, 0), (4, 4, 0, 1000), (4, 4, 1000, 1000), (9, 7, 0, 2880), (0, 12, 0, 40), (0, 12, 40, 0),
               (0, 1048576, 9, 9), (1, 1048575, 9, 9), (1, 1048576, 9, 9), (2, 1040000, 0, 0)]:
        made += ways('%d rows of %d, %d and %d bytes after them' % of, sized(*of))
    return made


def form_cases():
    """Rows of no bytes, and a column of every form."""
    empty = table(['0PE', '0B', '0QD'], 0, rows=16777216, pcount=3)
    forms = ['3L', '12X', '2B', '1I', '1J', '1K', '4A', '1E', '1D', '1C', '1M', '1PE', '1QD']
    every = table(forms, 91, rows=11, pcount=6)
    return (ways('16,777,216 rows of no bytes', ended(empty) + b'heap and after')
            + ways('no columns', ended(table([], 0, rows=7, pcount=3)) + b'heap and after')
            + ways('columns of every form', ended(every) + seeded('every form', 91 * 11 + 6)))


def long_file(file, length):
    return file + seeded('long %d' % length, length - len(file))


def length_cases():
    """Files of the most bytes and of one more."""
    too_long = Printed(b'', b"coentrift: 'table.fits' is longer than 2,097,152 bytes\n", 1)
    wide, more = sized(1, 1048576), ended(table(['9A'], 9, rows=999999))
    made = []
    for why, file in [('four rows and much after them', sized(4, 4)), ('a row of 1,048,576', wide),
                      ('the longest header', longest(GOOD) + listing.ROWS)]:
        made += ways('2,097,152 bytes: ' + why, long_file(file, LIMIT))
        made += all_ways('2,097,153 bytes: ' + why, long_file(file, LIMIT + 1), too_long)
    made += ways('2,097,152 bytes, all of them of the rows', sized(LIMIT - BLOCK, 1))
    made += ways('2,097,152 bytes, all of them of the rows or the heap', sized(1020, 2053, heap=212))
    made += refused('2,097,152 bytes without END', b'a' * LIMIT, 1, 0)
    made += refused('a table that no file of 2,097,152 bytes has', long_file(more, LIMIT), 10, 0)
    made += all_ways('2,097,153 bytes without END', b'a' * (LIMIT + 1), too_long)
    made += all_ways('2,097,153 bytes, and the table needs more', long_file(more, LIMIT + 1), too_long)
    return made + all_ways('5,000,000 bytes', bytes(5000000), too_long)


def whole_cases():
    """Whole files, and files that begin as one does."""
    simple = keyword('SIMPLE', 'T')
    primary = ended([simple, keyword('BITPIX', '8'), keyword('NAXIS', '0')])
    made = [
        ('a whole file', primary + GOOD_FILE, 4, 0),
        ('SIMPLE, in a block that is cut', primary[:-1], 1, 0),
        ('ten bytes of SIMPLE', b'SIMPLE  = ', 1, 0),
        ('nine bytes of SIMPLE', b'SIMPLE  =', 1, 0),
        ('SIMPLE, no END', padded([simple]), 2, 0),
        ('SIMPLE, NAXIS twice', ended([simple] + GOOD + [keyword('NAXIS', '2')]), 3, 13),
        ('SIMPLE, no TFORM2', ended([simple] + without('TFORM2')), 4, 2),
        ('SIMPLE, 5', ended([simple] + changed('BITPIX', "'8'")), 5, 2),
        ('SIMPLE, 6', ended([simple] + changed('BITPIX', '9')), 6, 2),
        ('SIMPLE without its mark', ended([record('SIMPLE  =T')] + without('NAXIS')), 4, 0),
        ('SIMPLE second', ended([record(''), simple] + without('NAXIS')), 4, 0),
        ('simple', ended([keyword('simple', 'T')] + without('NAXIS')), 4, 0),
    ]
    accepted = ways('a table whose first record is SIMPLE', ended([simple] + GOOD) + listing.ROWS)
    return accepted + sum([refused(*of) for of in made], [])


def text_cases():
    """The words of a refusal that the cases of layout_cases.py do not have."""
    made = [('END alone', END, 1, 0), ('an empty file', b'', 1, 0), ('a byte', b'\0', 1, 0),
            ('4: all required names are missing', ended([]), 4, 0)]
    for name in ('TFORM999', 'TTYPE64', 'THEAP'):
        card = keyword(name, '5')
        made.append(('3: ' + name, ended(GOOD + [card, record(''), card]), 3, 14))
    made += [('4: %s without a value' % name, ended(inserted(0, record(name), of=without(name))), 4, 0)
             for name in TABLE_NAMES[:8]]
    made += [('4: %s after END' % name, padded(without(name) + [END, keyword(name, '1')]), 4, 0)
             for name in TABLE_NAMES[:8]]
    return sum([refused(*of) for of in made], [])


def layout_files():
    """The cases of layout_cases.py as files, with the outcome that stands there where the file ends its header so."""
    made = []
    for one in layout_cases.named():
        file = one.header + seeded(one.why, one.area)
        outcome = [int(word) for word in one.outcome.split()[1:]]
        if outcome and header_length(file) == len(one.header):
            made += refused(one.why, file, *outcome)
        else:
            made += ways(one.why, file) + pages_of(one.why, file, one.sought)
    return made


def layout_in(file):
    """The header and the layout of a file, an empty one if it is refused."""
    end = header_length(file or b'')
    return (file or b'')[:end], layout_cases.read((file or b'')[:end], len(file or b'') - end)[1]


def pages_of(why, file, sought):
    """A page of each column by its index and by its name, of one that is not there, and of the names sought."""
    header, layout = layout_in(file)
    indexes = range(len(layout.columns) + 1)
    columns = [text('%d' % i) for i in indexes]
    columns += [single(noted_name(layout, header, i) or b'') for i in indexes] + [text(name) for name in sought]
    made = []
    for k, column in enumerate(column for column in columns if b'\0' not in column):
        row = max(0, layout.rows - 1 - k % 3)
        made.append(paged(why, file, [column, '%d' % row, '%d' % (k % 2 + 1)]))
    return made


def listing_files():
    """The tables of listing.py."""
    cases = listing.file_cases() + listing.refusal_cases() + listing.table_cases() + listing.empty_field_cases()
    made = [listing.shown_file(), listing.replayed_file(), listing.EXAMPLE] + [one.table for one in cases]
    files = [file for k, file in enumerate(made) if file is not None and file not in made[:k]]
    why = 'table %d of listing.py'
    return sum([ways(why % k, file) + pages_of(why % k, file, [b'']) for k, file in enumerate(files)], [])


NAMES = [
    b'a b', b'  ', b"it's", b"'", b'"', b'a\nb', b'\n', b'a\r\n', b'\t', b'back\\slash', b'%s %d %', b'{name}',
    b'$HOME', b'*', b'?', b'`x`', b'-', b'--', b'-h', b'--help', b'-o', b'turn', b'turn-back', b'page', b'=',
    b'\x01\x7f',
    b'.hidden', b'a folder/and another/t.fits', b'./t', b'a//t', b'n' * 255,
    '\u00dcn\u00efcode \u8868 \U0001f600.fits'.encode('utf-8'),
    # the first and the last character of two, of three and of four bytes, and those beside the surrogates
    b'\xc2\x80', b'\xdf\xbf', b'\xe0\xa0\x80', b'\xef\xbf\xbf', b'\xf0\x90\x80\x80', b'\xf4\x8f\xbf\xbf',
    b'\xed\x9f\xbf', b'\xee\x80\x80', b'\xef\xbb\xbfname',
]

# bytes that are no UTF-8: alone, cut, too long a form, a surrogate, above the last character
NO_UTF8 = [
    b'\xff.fits', b'\x80', b'name\xe9', b'cut\xe2\x82', b'\xc0\xaf', b'\xc1\xbf', b'\xe0\x9f\xbf', b'\xed\xa0\x80',
    b'\xf0\x8f\xbf\xbf', b'\xf4\x90\x80\x80', b'\xf5\x80\x80\x80', b'\xe2\x28\xa1', b'ok\xe2\x82\xac\xfe',
]

# names of no file that can be read
NO_FILE = [b'', b'.', b'..', b'/', b'./', b'none/..', b'/dev/null/x', b'n' * 256, b'n' * 4095, b'n/' * 2047 + b'n']


def long_name(length):
    """A name of so many bytes for the file `table`."""
    return b'./' * ((length - 5) // 2 - (length - 5) % 2) + b'.//' * ((length - 5) % 2) + b'table'


def unread(name):
    """What is written of a file that cannot be read, by hand."""
    return Printed(b'refused 1 0\n', b'coentrift: cannot read ' + name + b', which counts as empty\n'
                   b'coentrift: refused 1 0: the file is empty\n', 1)


def name_cases():
    good, bad, long = sized(3, 5, heap=2), ended(without('NAXIS')), bytes(LIMIT + 1)
    made = []
    for name in NAMES:
        made += ways('a name', good, name=name) + all_ways('a name whose file is refused', bad, None, name)
        made.append(paged('a name', shown_page(), ['weight', '1', '2'], SHOWN_PAGE, name))
    for name in [long_name(length) for length in (4093, 4094, 4095)]:
        made += ways('a long name', good, name=name)
        made.append(paged('a long name', shown_page(), ['weight', '1', '2'], SHOWN_PAGE, name))
    for name in (b"it's\n", b'-h'):
        made += all_ways('a name whose file is too long', long, None, name)
    for name in NAMES + NO_FILE:
        made += all_ways('a name whose file is missing', None, unread(b"'" + name + b"'"), name)
    for name, file in itertools.product(NO_UTF8, (None, GOOD_FILE)):
        made += all_ways('a name that is not UTF-8', file, unread(b"'" + name + b"'"), name)
    return made


# words that are no subcommand
NO_SUBCOMMAND = [
    b'Turn', b'TURN', b'turn ', b' turn', b'turn\n', b'tur', b'turns', b'turn-', b'turn-bac', b'turn-backs',
    b'turn_back', b'Turn-Back', b'turn back', b'turnback', b'turn-back ', b'-turn', b'--turn', b'--help', b'-h',
    b'help', b'', b'back', b'\xf4urn', b'turn\xff', b'table', b'./turn', b'retire', b'turn'.ljust(4096),
    b'turn-back'.ljust(4096), b'Page', b'PAGE', b'page ', b' page', b'page\n', b'pag', b'pages', b'page\xff', b'-page',
    b'--page', b'page 0 0 1', b'profile', b'page'.ljust(4096),
]

# too few words and too many
NO_PAIR = [
    [], [b'turn'], [b'turn-back'], [b'table'], [b''], [b'help'], [b'--help'], [b'--version'], [b'turn', b'table', b''],
    [b'turn', b'', b''], [b'turn', b'table', b'table'], [b'turn-back', b'table', b'more'], [b'turn'] * 3,
    [b'turn'] + [b'table'] * 3000, [b'turn', b'table', b'0', b'0', b'1'], [b'turn-back', b'table', b'0', b'0', b'1'],
    [b'page', b'table'], [b'page'] * 6,
]

# what a page takes after its table, too few words of it and too many
PAGE = [b'0', b'0', b'1']
NO_PAGE = [PAGE[:count] for count in range(3)] + [
    PAGE + [b''], PAGE + [b'1'], PAGE + PAGE, PAGE + [b'2'] * 3000, [b'', b'', b''], [b'WT 0 1'], [b'0 0 1', b'', b''],
]

# words that say no row and no edition
NO_NUMBER = [
    b'', b' ', b'  ', b'-1', b'+1', b'-0', b'+', b'-', b'--', b'1 ', b' 1', b'1\n', b'\n1', b'\t1', b'1 1', b'1.0',
    b'1.', b'.1', b'1,000', b'1_000', b'0x1', b'1e3', b'1E0', b'0b1', b'1u', b'1L', b'one', b'I', b'a', b'/', b':',
    b'0/', b'0:', b'/0', b':0', b'1\x7f', b'1\xff', b'\xb2', b'\x011', b'*', b'nan', b'\xef\xbc\x91', b'\xd9\xa1',
    b'\xc2\xb9', b'0' * 4094 + b'x', b'x' * 4095,
]

# digits that say a number of 2 to the 64th or above: neither a row, nor an edition, nor an index
TOO_LARGE = [
    b'18446744073709551616', b'18446744073709551617', b'18446744073709551625', b'18446744073709551700',
    b'18446744073709551626', b'18446744073709600000', b'20000000000000000000', b'36893488147419103232',
    b'55340232221128654848', b'99999999999999999999', b'100000000000000000000', b'184467440737095516160',
    b'340282366920938463463374607431768211456', b'9' * 4095, b'0' + b'18446744073709551616',
    b'0' * 4000 + b'18446744073709551616', b'1' + b'0' * 4094,
]

# beyond 4,095 bytes nothing is a number
TOO_LONG = [b'0' * 4096, b'0' * 4095 + b'1', b'1' * 5000, b'0' * 100000]


def page_usage_cases():
    """Words of a page that are wrong, though the table could be read."""
    words = list(NO_PAGE)
    for wrong in NO_NUMBER + TOO_LARGE + TOO_LONG:
        words += [[b'0', wrong, b'1'], [b'0', b'0', wrong], [b'0', wrong, wrong], [b'none', wrong, b'9']]
    for wrong in TOO_LARGE + TOO_LONG + [b'n' * 4096]:
        words += [[wrong, b'0', b'1'], [wrong, b'9', b'9']]
    return [Case('usage of page', [b'page', b'table'] + of, shown_page(), Printed(b'', USAGE, 2)) for of in words]


def usage_cases():
    long = [b'n' * 4096, long_name(4096), b'./' * 2046 + b'table', b'n' * 100000]
    assert [len(name) for name in long] == [4096, 4096, 4097, 100000]
    words = NO_PAIR + [[name, b'table'] for name in NO_SUBCOMMAND + long] + [[b'table', way] for way in WAYS]
    words += [[name, b'table'] + PAGE for name in NO_SUBCOMMAND + long] + [[b'page', name] + PAGE for name in long]
    words += [[way, name] for way in WAYS for name in long]
    words += [[b'turn', b'table', name] for name in long] + [[name] * count for name in long for count in (1, 2, 3)]
    return [Case('usage', of, GOOD_FILE, Printed(b'', USAGE, 2)) for of in words] + page_usage_cases()


# ---- pages by name ----

# the bytes of a float, and its weight by hand in edition 1 and in edition 2; the float nearest to 0.05 is above it,
# and so are those nearest to 0.15 and 9.96, while those nearest to 0.005, 9.95, 0.45 and 1.005 are below
WEIGHTS = '''
42a04000 80.1 80.12
c2a04000 -80.1 -80.12
42a0c000 80.4 80.38
00000000 0.0 0.00
80000000 0.0 0.00
3f800000 1.0 1.00
bf800000 -1.0 -1.00
3dcccccd 0.1 0.10
3e800000 0.3 0.25
be800000 -0.3 -0.25
3f400000 0.8 0.75
bf400000 -0.8 -0.75
3e000000 0.1 0.12
3ec00000 0.4 0.38
3f200000 0.6 0.62
3f600000 0.9 0.88
be000000 -0.1 -0.12
bec00000 -0.4 -0.38
bf200000 -0.6 -0.62
bf600000 -0.9 -0.88
3e7fffff 0.2 0.25
3e800001 0.3 0.25
3dffffff 0.1 0.12
3e000001 0.1 0.13
3ebfffff 0.4 0.37
3ec00001 0.4 0.38
3f9fffff 1.2 1.25
3fa00000 1.3 1.25
bfa00000 -1.3 -1.25
3d4ccccc 0.0 0.05
3d4ccccd 0.1 0.05
bd4ccccc 0.0 -0.05
bd4ccccd -0.1 -0.05
bd23d70a 0.0 -0.04
3ba3d70a 0.0 0.00
3ba3d70b 0.0 0.01
bba3d70a 0.0 0.00
bba3d70b 0.0 -0.01
3c23d70a 0.0 0.01
3e19999a 0.2 0.15
3ee66666 0.4 0.45
3f80a3d7 1.0 1.00
3f7eb852 1.0 1.00
3f7d70a4 1.0 0.99
411f3333 9.9 9.95
411f3334 10.0 9.95
411f5c29 10.0 9.96
c11fd70a -10.0 -9.99
c11feb85 -10.0 -9.99
c11feb86 -10.0 -10.00
42c7feb8 100.0 100.00
00000001 0.0 0.00
80000001 0.0 0.00
007fffff 0.0 0.00
00800000 0.0 0.00
80800000 0.0 0.00
497423ff 999999.9 999999.94
c97423ff -999999.9 -999999.94
49742400 1000000.0 1000000.00
c9742400 -1000000.0 **********
c9742404 -1000000.3 **********
4a7ffffd 4194303.3 4194303.25
4a7fffff 4194303.8 4194303.75
ca7fffff -4194303.8 **********
49ffffff 2097151.9 2097151.88
49fffffd 2097151.6 2097151.62
c97fffff -1048575.9 **********
4b18967f 9999999.0 9999999.00
cb18967f -9999999.0 **********
4b189680 10000000.0 **********
cb189680 ********** **********
4b800000 16777216.0 **********
cb800000 ********** **********
4cbebc1f 99999992.0 **********
4cbebc20 ********** **********
ccbebc1f ********** **********
4f800000 ********** **********
7f7fffff ********** **********
ff7fffff ********** **********
7f800000 ********** **********
ff800000 ********** **********
7fc00000 ********** **********
ffc00000 ********** **********
7f800001 ********** **********
ffffffff ********** **********
7fc12345 ********** **********
'''

# The table of a page: a place, three weights, two bytes.
SHOWN_ROWS = '''
0001 3f800000 bf800000 3e800000 0a0b
ffff 42a04000 bd23d70a 7fc00001 1a1b
'''
SHOWN_PAGE = Printed(b'''\
       1      0      80.12
       1      1      -0.04
       1      2 **********
''', b'', 0)
SHOWN_PAGES = [('0', '1', '''\
       0      0        1.0
       0      1       -1.0
       0      2        0.3
'''), ('0', '2', '''\
       0      0       1.00
       0      1      -1.00
       0      2       0.25
'''), ('1', '1', '''\
       1      0       80.1
       1      1        0.0
       1      2 **********
''')]


def weights_file(forms, rows, area, names=(), heap=b'', more=()):
    """A file of a table: the rows' bytes and the heap's, names without doubled quotes, and more records."""
    width = sum(form_of(text(form))[2] for form in forms)
    assert len(area) == rows * width
    named_so = [None if name is None else doubled(text(name)) for name in names]
    return ended(table(forms, width, rows=rows, pcount=len(heap), names=named_so) + list(more)) + area + heap


def shown_page():
    return weights_file(['1I', '3E', '2B'], 2, bytes.fromhex(SHOWN_ROWS), ['POS', 'WEIGHT', 'RAW'])


# The table of README's page, and its page.
README_ROWS = '''
0001 42a04000 42a08000 c2a08000 bd23d70a 7fc00000
0002 42a0c000 42a00000 3d4ccccd 4cbebc1f ff800000
'''
README_WORDS = ['weight', '0', '1']
README_PAGE = '''\
       0      0       80.1
       0      1       80.3
       0      2      -80.3
       0      3        0.0
       0      4 **********
'''


def readme_file():
    file = weights_file(['1I', '5E'], 2, bytes.fromhex(README_ROWS), ['POS', 'WEIGHT'])
    return file + bytes(-len(file) % BLOCK)


def random_weight(rng):
    """The bytes of a float of any kind, most of them with a text of ten places at most."""
    kind = rng.randrange(8)
    if kind == 0:
        return rng.randbytes(4)
    if kind == 1:
        return bytes.fromhex(rng.choice(WEIGHTS.split('\n')[1:-1]).split()[0])
    if kind < 4:
        value = rng.randrange(1, 1 << rng.randrange(2, 24)) / rng.choice([1, 2, 4, 8, 16, 128])
    else:
        value = rng.random() * 10 ** rng.randrange(-3, 9)
    return struct.pack('>f', rng.choice([value, -value]))


def weights(why, count):
    """The bytes of so many floats; of many, a number without 2 and 5 in it come again and again."""
    rng = random.Random(why)
    made = [random_weight(rng) for _ in range(min(count, 10007))]
    return b''.join(itertools.islice(itertools.cycle(made), count)) if count else b''


def many_weights():
    """The most lines in a page of each of two rows."""
    pos = [b'\0\1', b'\0\2']
    return weights_file(['1I', '155344E'], 2, b''.join(of + weights(of, 155344) for of in pos), ['POS', 'WT'])


def weight_cases():
    """Each of WEIGHTS in its line."""
    listed = [line.split() for line in WEIGHTS.split('\n')[1:-1]]
    stored = [bytes.fromhex(bits) for bits, *texts in listed]
    file = weights_file(['1B', '%dE' % len(listed), '1B'], 2, b''.join(
        [b'\1'] + stored[::-1] + [b'\2\3'] + stored + [b'\4']))
    made = []
    for edition in (1, 2):
        lines = ['%8s %6s %10s\n' % (1, i, one[edition]) for i, one in enumerate(listed)]
        made.append(paged('weights by hand', file, ['1', '1', '%d' % edition], Printed(text(''.join(lines)), b'', 0)))
        lines = ['%8s %6s %10s\n' % (0, i, one[edition]) for i, one in enumerate(listed[::-1])]
        made.append(paged('weights by hand', file, ['1', '0', '%d' % edition], Printed(text(''.join(lines)), b'', 0)))
    for bits, *texts in listed:
        file = weights_file(['E'], 1, bytes.fromhex(bits), ['w'])
        for edition, of in zip('12', texts):
            made.append(paged(bits, file, ['W', '0', edition], Printed(text('%8s %6s %10s\n' % (0, 0, of)), b'', 0)))
    return made


# words that are no name in the table of a page, and no digits alone
NO_NAME = [
    'WEIGH', 'WEIGHTS', 'WEIGHT ', ' WEIGHT', 'EIGHT', '', ' ', '-', '-1', '+1', '1 ', ' 1', '1.0', '0x1', '1E', 'one',
    'COLUMN1', 'TTYPE2', '3E', '*', '?', '%', 'WEIGHT\n', "'WEIGHT'", b'WEIGHT\xff', b'\xd7EIGHT', b'\x01', b'\xb9',
    '1\n', '1,', '/', ':', '1:', 'n' * 4095, '\uff11'.encode('utf-8'), '\u0661'.encode('utf-8'),
]

NO_EDITIONS = [0, 3, 4, 10, 11, 12, 20, 21, 255, 256, 257, 258, 65537, 2 ** 32 + 1, 2 ** 32 + 2, 2 ** 63, 2 ** 64 - 1]


def shown_cases():
    """The table of a page, and ways to say its column, its row and its edition."""
    file, made = shown_page(), []
    made.append(paged('of README', readme_file(), README_WORDS, Printed(text(README_PAGE), b'', 0)))
    for (row, edition, said), column in itertools.product(SHOWN_PAGES, ('1', 'WEIGHT')):
        made.append(paged('by hand', file, [column, row, edition], Printed(text(said), b'', 0)))
    for column in ('1', '01', '0' * 30 + '1', '0' * 4094 + '1', 'WEIGHT', 'weight', 'Weight', 'wEiGhT'):
        for zeros in ('', '0', '0' * 20, '0' * 4094):
            made.append(paged('said so', file, [column, zeros + '1', zeros + '2'], SHOWN_PAGE))
    for column in NO_NAME:
        made.append(paged('no such name', file, [column, '1', '2'], refused_with(15, 0, NO_COLUMN)))
    for column in ('3', '4', '03', '64', '999', '4294967297', '18446744073709551614', '18446744073709551615',
                   '0' * 4075 + '18446744073709551615'):
        made.append(paged('no such index', file, [column, '1', '2'], refused_with(15, 0, NO_COLUMN)))
    for row in (2, 3, 10, 256, 65537, 2 ** 24, 2 ** 31, 2 ** 32, 2 ** 32 + 1, 2 ** 63, 2 ** 64 - 1):
        for edition, zeros in itertools.product('12', ('', '0', '0' * 4000)):
            made.append(paged('no such row', file, ['1', zeros + '%d' % row, edition], refused_with(12, row)))
    for edition, zeros in itertools.product(NO_EDITIONS, ('', '0', '0' * 4000)):
        words = ['1', '1', zeros + '%d' % edition]
        made.append(paged('no such edition', file, words, refused_with(15, 0, NO_EDITION)))
    return made


# a column, a row and an edition of the table of order_cases, and what is refused
IN_ORDER = [
    (15, NO_EDITION, ['1 0 0', '1 0 3', '1 2 3', '1 99 0', '0 0 3', '0 2 0', '2 0 3', '3 0 3', '3 2 3', '4 0 0',
                      '4 2 3', '5 0 0', '5 0 3', '5 9 3', 'none 0 0', 'none 9 3', 'pos 0 3', 'wide 0 0',
                      'WT 1 18446744073709551615']),
    (15, NO_COLUMN, ['5 0 1', '5 0 2', '5 1 1', '5 2 1', '63 9 2', '18446744073709551615 18446744073709551615 2',
                     'none 0 1', 'none 1 2', 'none 2 1', 'W 0 1', 'WTT 9 2']),
    (15, NO_E, ['0 0 1', '0 1 2', '0 2 1', '2 0 1', '2 2 2', 'POS 0 1', 'pos 9 2', 'Profile 0 1', 'PROFILE 2 1']),
    (12, None, ['1 2 1', '1 3 2', 'wt 2 1', '3 2 1', '3 99 2', 'WIDE 2 2', '4 2 1', 'none\'s 3 2',
                '1 18446744073709551615 1', '3 18446744073709551615 2']),
    (14, None, ['3 0 1', '3 1 2', 'wide 0 2', 'WIDE 1 1']),
]


def order_cases():
    """What is refused first. Column 3 has one item more than there is room for."""
    made, width = [], 2 + 8 + 8 + 4 * 155345
    file = weights_file(['1I', '2E', '1PE', '155345E', '0E'], 2, seeded('order', 2 * width),
                        ['POS', 'WT', 'PROFILE', 'WIDE', "NONE'S"])
    for number, own, listed in IN_ORDER:
        for words in [one.split() for one in listed]:
            place = {12: int(words[1]), 14: 4194315, 15: 0}[number]
            made.append(paged('%d is first' % number, file, words, refused_with(number, place, own)))
    for words in ('4 0 1', '4 1 2', "none's 0 2", "NONE'S 1 1"):
        made.append(paged('no items', file, words.split(), Printed(b'', b'', 0)))
    none = weights_file([], 3, b'')
    for column in ('0', '1', '', 'x'):
        made.append(paged('no columns', none, [column, '0', '1'], refused_with(15, 0, NO_COLUMN)))
        made.append(paged('no columns', none, [column, '3', '2'], refused_with(15, 0, NO_COLUMN)))
    rowless = weights_file(['155345E', '1E', '0E', '1D'], 0, b'', ['wide', 'one', 'no', 'd'])
    for column, row in itertools.product(('0', '1', '2', 'Wide', 'ONE', 'No'), (0, 1, 2 ** 64 - 1)):
        made.append(paged('no rows', rowless, [column, '%d' % row, '1'], refused_with(12, row)))
    made.append(paged('no rows', rowless, ['D', '0', '1'], refused_with(15, 0, NO_E)))
    empty = weights_file(['0PE', '0E', '0D', '0E'], 16777216, b'', ['P', 'W', 'D', 'w'])
    for column, row in itertools.product(('1', 'w', '3'), (0, 9, 16777214, 16777215)):
        made.append(paged('rows of no bytes', empty, [column, '%d' % row, '2'], Printed(b'', b'', 0)))
    for column in ('0', '2', 'p', 'd'):
        made.append(paged('rows of no bytes', empty, [column, '0', '2'], refused_with(15, 0, NO_E)))
    return made + [paged('rows of no bytes', empty, ['w', '16777216', '2'], refused_with(12, 16777216))]


# TSCALn and TZEROn of column 2, an E column, and what is said of it
SCALINGS = [
    ([('TSCAL2', '2')], SCALED), ([('TZERO2', '0')], SCALED), ([('TSCAL2', '1'), ('TZERO2', '0.0')], SCALED),
    ([('TSCAL1', '2'), ('TZERO1', '32768')], None), ([('TSCAL5', '2'), ('TZERO5', 'x')], None),
    ([('TSCAL02', '2')], None), ([('TSCAL3', '-1E-3'), ('TZERO4', '1')], None),
]
BAD_SCALINGS = [
    ([('TSCAL2', '1E23')], 2), ([('TZERO2', "'1'")], 2), ([('TZERO2', '1'), ('TZERO2', '1')], 2), ([('TSCAL3', '')], 3),
    ([('TZERO4', '.')], 4), ([('TSCAL4', '1e5'), ('TSCAL1', '1234567890123456')], 1),
]


def scaling_cases():
    """Columns with a factor or a zero have no page, and the page of a column does not ask for that of another one."""
    made, forms, names = [], ['1I', '2E', '1E', '1PJ'], ['POS', 'WEIGHT', 'OTHER', 'LIST']
    for pairs, said in SCALINGS:
        more = [keyword(name, value) for name, value in pairs]
        file = weights_file(forms, 3, seeded('scaling', 3 * 22), names, more=more)
        for row, edition in itertools.product('03', '123'):
            own = NO_EDITION if edition == '3' else said
            wanted = refused_with(15, 0, own) if own else refused_with(12, 3) if row == '3' else None
            made += [paged('%s' % pairs, file, [column, row, edition], wanted) for column in ('1', 'Weight')]
        made.append(paged('%s' % pairs, file, ['0', '0', '1'], refused_with(15, 0, NO_E)))
        made.append(paged('%s' % pairs, file, ['list', '3', '1'], refused_with(15, 0, NO_E)))
    for pairs, n in BAD_SCALINGS:
        more = [keyword(name, value) for name, value in pairs]
        file = weights_file(forms, 3, seeded('scaling', 3 * 22), names, more=more)
        made += refused('%s' % pairs, file, 16, n)
        made.append(paged('%s' % pairs, file, ['1', '0', '1'], refused_with(16, n)))
    return made + refused('a factor of letters', weights_file(['3A'], 1, b'abc', more=[keyword('TSCAL1', '1')]), 16, 1)


# TNULLn that are good, and such as are refused with the place of the 17
NULLS = [
    [('TNULL1', '-32768'), ('TNULL4', '0000000000000000007')], [('TNULL1', '40000')], [('TNULL5', 'x')] * 2,
    [('TNULL01', '2.')], [('TNULL4', '-9223372036854775809')],
]
BAD_NULLS = [
    ([('TNULL2', '0')], 2), ([('TNULL1', '1.')], 1), ([('TNULL4', "'1'")], 4), ([('TNULL1', '')], 1),
    ([('TNULL1', '1'), ('TNULL1', '1')], 1), ([('TNULL4', '00000000000000000007')], 4), ([('TNULL3', '1E3')], 3),
    ([('TSCAL2', '2'), ('TNULL2', '7')], 2), ([('TZERO4', '.'), ('TNULL1', '- 1')], 1),
]


def null_cases():
    """The null of a column is no matter to the page of another one. A bad one is refused by each subcommand."""
    made, forms, names = [], ['1I', '2E', '1E', '1PJ'], ['POS', 'WEIGHT', 'OTHER', 'LIST']
    for pairs in NULLS:
        more = [keyword(name, value) for name, value in pairs]
        file = weights_file(forms, 3, seeded('null', 3 * 22), names, more=more)
        made += [paged('%s' % pairs, file, [column, row, '1']) for column in ('1', 'Weight', '2') for row in '02']
        made.append(paged('%s' % pairs, file, ['0', '0', '1'], refused_with(15, 0, NO_E)))
    for pairs, n in BAD_NULLS:
        more = [keyword(name, value) for name, value in pairs]
        file = weights_file(forms, 3, seeded('null', 3 * 22), names, more=more)
        made += refused('%s' % pairs, file, 17, n)
        made.append(paged('%s' % pairs, file, ['1', '0', '1'], refused_with(17, n)))
    return made + refused('a null of letters', weights_file(['3A'], 1, b'abc', more=[keyword('TNULL1', '97')]), 17, 1)


# forms that are E, and how many items they have; and forms that are not
E_FORMS = [
    ('E', 1), ('1E', 1), ('2E', 2), ('3E', 3), ('0E', 0), ('00E', 0), ('007E', 7), ('0' * 30 + '2E', 2), ('E(3)', 1),
    ('1ED', 1), ('1E and more', 1), ('4EE', 4), ('1E2', 1), ('2E ', 2), ('EPE', 1), ('12EQ', 12),
]
OTHER_FORMS = [count + letter for letter in 'LXBIJKADCM' for count in ('', '0', '1', '4', '9')]
OTHER_FORMS += [count + letter + of for letter in 'PQ' for of in 'EDLXBIJKACM' for count in ('', '0', '1')]
OTHER_FORMS += ['1PE(4)', 'QE(9)', '1DE', 'AE']
BY_AN_E = [None, '1B', '3A', '1I', '9X', '1D', '0PE', '1PE', 'QD', '0E', '1E']


def kind_cases():
    """E columns alone, before and behind others, of which one at least moves them off a multiple of four bytes."""
    made = []
    for (form, count), other in itertools.product(E_FORMS, BY_AN_E):
        for forms in ([form], [form, other], [other, form], [other, form, other]) if other else ([form],):
            width = sum(form_of(text(of))[2] for of in forms)
            file = weights_file(forms, 3, seeded('%s' % forms, 3 * width), heap=b'heap')
            at, row = forms.index(form), len(made) % 3
            if count == 0:
                made.append(paged('%s' % forms, file, ['%d' % at, '%d' % row, '1'], Printed(b'', b'', 0)))
            made += [paged('%s' % forms, file, ['%d' % at, '%d' % row, edition]) for edition in '12']
    for form in OTHER_FORMS:
        forms = ['1B', form, '2E']
        width = sum(form_of(text(of))[2] for of in forms)
        file = weights_file(forms, 2, seeded(form, 2 * width), names=['a', 'b', 'c'])
        for column, row, edition in (('1', '0', '1'), ('B', '1', '2'), ('1', '2', '1')):
            made.append(paged('not E: ' + form, file, [column, row, edition], refused_with(15, 0, NO_E)))
        made += [paged('behind ' + form, file, ['C', '1', edition]) for edition in '12']
    return made + sum([refused('a form of small e', ended(table(['1e'], 4)) + bytes(4), 8, 1),
                       refused('two descriptors', ended(table(['2PE'], 16)) + bytes(16), 8, 1)], [])


# lists of names, and which name finds which column, if one; a name of digits only is none to a page
BY_NAMES = [
    (['WEIGHT'], 'WEIGHT 0 weight 0 Weight 0 wEIGHt 0 WEIGH - WEIGHTT - WElGHT - eight -'),
    (['weight', 'WEIGHT', 'Weight'], 'weight 0 WEIGHT 0 Weight 0 WEIGHt 0'),
    (['a', 'A', 'b', 'B', 'b'], 'a 0 A 0 b 2 B 2 c -'),
    ([None, 'W', None, 'w'], 'w 1 W 1 - - TTYPE1 -'),
    (["it's", "IT''S", "o''''o"], "it's 0 IT'S 0 It''s 1 it''S 1 it'''s - its - O''''O 2 o''o -"),
    (["'", "''", "'''"], "' 0 '' 1 ''' 2 '''' -"),
    (['7', '0', '-1', '+1', '1.0', '1E', '0x1', '1,'],
     '7 7 0 0 -1 2 +1 3 1.0 4 1e 5 0X1 6 1, 7 07 7 -01 - 1.00 - 8 -'),
    (['9', '10', '007', '4294967296', '18446744073709551615'],
     '9 - 10 - 007 - 4294967296 - 18446744073709551615 - 0 0 1 1 02 2 4 4 5 -'),
    (['@', '`', '[', '{', 'Z', 'z', '\\', '|'], '@ 0 ` 1 [ 2 { 3 Z 4 z 4 \\ 6 | 7'),
    ([b'M\xc4RZ', b'm\xe4rz', b'\xff', b'\xdf'],
     [b'm\xc4rz', 0, b'M\xe4RZ', 1, b'\xff', 2, b'\xdf', 3, b'm\xe4r', None]),
    (['a b', ' a', 'a  b'], [b'A B', 0, b' A', 1, b'a  B', 2, b'ab', None, b'a', None, b'a b ', None]),
    ([None, '', '  ', 'x'], [b'', 1, b' ', None, b'  ', None, b'X', 3]),
    ([None, 'x', '   '], [b'', 2, b' ', None, b'   ', None, b'x', 1]),
    ([None, None], [b'', None, b' ', None, b'-', None]),
    (['1 2', ' 1', '1 ', '1'], [b'1 2', 0, b' 1', 1, b'1', 1, b'1 ', None, b'2 ', None]),
    (['x' * 68, 'X' * 67], ['x' * 68, 0, 'X' * 68, 0, 'x' * 67, 1, 'x' * 66, None, 'x' * 69, None]),
    (['--', '-', '--help', '-h', '$HOME', '*', 'a/b', 'a\nb', '%s'],
     [b'--', 0, b'-', 1, b'--HELP', 2, b'-h', 3, b'$home', 4, b'*', 5, b'A/B', 6, b'a\nB', 7, b'%S', 8]),
]


def found_pairs(listed):
    words = listed.split() if isinstance(listed, str) else listed
    columns = [None if column in ('-', None) else int(column) for column in words[1::2]]
    return list(zip(words[::2], columns))


def by_name_cases():
    """Columns by their names. Column k has the weight k + 1 in row 0 and k + 101 in row 1."""
    made = []
    for names, listed in BY_NAMES:
        area = b''.join(struct.pack('>f', k + at) for at in (1, 101) for k in range(len(names)))
        file = weights_file(['1E'] * len(names), 2, area, names)
        for name, column in found_pairs(listed):
            for row in (0, 1):
                said = refused_with(15, 0, NO_COLUMN)
                if column is not None:
                    said = Printed(b'%8d      0 %8d.0\n' % (row, column + 1 + 100 * row), b'', 0)
                made.append(paged('names %s' % ascii(names), file, [name, '%d' % row, '1'], said))
    large = '18446744073709551616'
    file = weights_file(['1E'], 1, bytes(4), [large])
    made.append(paged('a name that is no index', file, [large, '0', '1'], Printed(b'', USAGE, 2)))
    for forms, said in ((['1I', '1E'], refused_with(15, 0, NO_E)), (['1PE', '1E'], refused_with(15, 0, NO_E)),
                        (['0E', '1D'], Printed(b'', b'', 0)), (['0E', '1E'], Printed(b'', b'', 0))):
        width = sum(form_of(text(of))[2] for of in forms)
        file = weights_file(forms, 1, bytes(width), ['Same', 'SAME'])
        made += [paged('the first of a name', file, [name, '0', '1'], said) for name in ('SAME', 'same', 'Same')]
    columns = [b'%c%c' % pair for pair in itertools.product(b'abcdefgh', b'ABCDEFGH')]
    file = weights_file(['1E'] * 64, 1, b''.join(struct.pack('>f', k) for k in range(64)), columns)
    for k, name in enumerate(columns):
        for word in (b'%d' % k, name, name.swapcase()):
            made.append(paged('64 columns', file, [word, '0', '1'], Printed(b'       0      0 %8d.0\n' % k, b'', 0)))
    said = refused_with(15, 0, NO_COLUMN)
    return made + [paged('64 columns', file, [word, '0', '1'], said) for word in ('64', 'ai', 'i')]


def row_cases():
    """Rows of four bytes, and as many as a file of the most bytes takes; rows of other widths."""
    rows = (LIMIT - BLOCK) // 4
    file = weights_file(['1E'], rows, weights('rows', rows), ['WT'])
    assert (rows, len(file)) == (523568, LIMIT)
    numbers = {of for k in range(6) for of in (10 ** k - 1, 10 ** k, 10 ** k + 1)}
    numbers |= {255, 256, 65535, 65536, 65537, 523566, 523567}
    made = [paged('a row of many', file, ['wt', '%d' % row, edition]) for row in sorted(numbers) for edition in '12']
    for row in (523568, 523569, 999999):
        made.append(paged('a row of many', file, ['0', '%d' % row, '1'], refused_with(12, row)))
    for forms, rows in ((['1B', '1E'], 300000), (['1E', '3A', '2E'], 100001), (['1E', '1000B'], 2000),
                        (['1J', '0E', '1E'], 16000)):
        width = sum(form_of(text(of))[2] for of in forms)
        file = weights_file(forms, rows, seeded('%s' % forms, rows * width))
        for row in (0, 1, 9, 10, rows // 2, rows - 2, rows - 1, rows):
            words = ['%d' % (len(forms) - 1 if row % 2 else 0), '%d' % row, '2']
            made.append(paged('%d rows of %d' % (rows, width), file, words))
    return made


# of items in a row: pages of about a power of 2 bytes, more digits in an index, the most lines
COUNTS = list(range(34)) + [
    37, 38, 99, 100, 101, 151, 152, 303, 304, 606, 607, 999, 1000, 1001, 2427, 2428, 9999, 10000, 10001, 38836, 38837,
    65535, 65536, 65537, 77672, 99999, 100000, 100001, 131072, 155343, 155344,
]

# more, and the bytes of their pages by hand
TOO_MANY = [(155345, 4194315), (155346, 4194342), (200000, 5400000), (262143, 7077861), (262144, 7077888)]


def item_cases():
    """Few items, and as many as there is room for; one more, and the most that a row has."""
    made = []
    for count in COUNTS:
        file = weights_file(['1B', '%dE' % count], 3, b''.join(bytes([row]) + weights('%d %d' % (count, row), count)
                                                             for row in range(3)))
        # each row of few items, the last of many
        for row, edition in itertools.product((0, 1, 2) if count < 1002 else (2,), (1, 2)):
            made.append(paged('%d items' % count, file, ['1', '%d' % row, '%d' % edition]))
    for count, needed in TOO_MANY:
        file = weights_file(['%dE' % count], 1, seeded('%d' % count, 4 * count))
        for words, said in ((['0', '0', '1'], refused_with(14, needed)), (['0', '0', '2'], refused_with(14, needed)),
                            (['0', '1', '1'], refused_with(12, 1)), (['0', '0', '3'], refused_with(15, 0, NO_EDITION)),
                            (['1', '0', '1'], refused_with(15, 0, NO_COLUMN))):
            made.append(paged('%d items' % count, file, words, said))
    # 2,097,152 bytes, of which the last are a row's, a heap's or none of the table's
    most, more = (LIMIT - BLOCK) // 4 // 4, weights('most', 4 * 130892)
    assert most == 130892
    of_rows = weights_file(['%dE' % most], 4, more)
    made += [paged('2,097,152 bytes', of_rows, ['0', row, edition]) for row in '03' for edition in '12']
    behind = weights_file(['1B', '3E'], 5, seeded('behind', 65))
    made += [paged('2,097,152 bytes', long_file(behind, LIMIT), ['1', row, '2']) for row in '04']
    heap = weights_file(['3E', '1PE'], 5, seeded('a heap', 100), heap=seeded('its bytes', 50))
    return made + [paged('a heap', heap, [column, row, '1']) for column in '01' for row in '045']


def page_cases():
    return (weight_cases() + shown_cases() + order_cases() + kind_cases() + scaling_cases() + null_cases()
            + by_name_cases() + row_cases() + item_cases())


def named():
    return (hand_cases() + size_cases() + form_cases() + length_cases() + whole_cases() + text_cases() + layout_files()
            + listing_files() + name_cases() + usage_cases() + page_cases())


# ---- random cases ----


def random_forms(rng, width):
    forms = []
    while width > 0:
        size = min(width, rng.choice([1, 2, width, rng.randrange(1, width + 1)]))
        forms.append(rng.choice(['%dB', '%dA', '%dL']) % size if len(forms) < 63 else '%dB' % width)
        width -= size if len(forms) < 64 else width
    return forms or rng.choice([[], ['0B'], ['0PE', '0A']])


def random_table(rng):
    """A table that is accepted, small or not so small, and bytes after it."""
    few, many = [0, 1, 2, 3, rng.randrange(20)], rng.choice([rng.randrange(300), rng.randrange(3000), 65, 257])
    rows, width = rng.sample([rng.choice(few + [rng.randrange(80)]), rng.choice(few + [many])], 2)
    heap, after = [rng.choice([0, 0, 1, rng.randrange(50), rng.randrange(3000)]) for _ in 'ab']
    records = table(random_forms(rng, width), width, rows=rows, pcount=heap,
                    theap=rng.choice([None, rows * width + rng.randrange(heap + 1)]))
    return ended(records) + rng.randbytes(rows * width + heap + after)


def random_file(rng):
    kind = rng.randrange(8)
    if kind < 3:
        return random_table(rng)
    if kind < 5:
        return listing.random_file(rng, table_cases.random_case(rng))
    one = layout_cases.random_case(rng)
    file = one.header + rng.randbytes(one.area)
    if kind == 7:
        simple = keyword('SIMPLE', 'T')
        file = rng.choice([ended([simple]) + file, simple + file[80:], padded([simple]) + file])
    return file


E_COUNTS = ['', '0', '1', '1', '2', '2', '3', '7', '12', '40', '003', '151', '152', '999', '2428']
BESIDE = ['1B', '3A', '1I', '9X', '1J', '1D', '1K', '1C', '1PE', 'QE', '0PE', '0B', '5L', 'PD(3)', '1M']


def random_weights(rng):
    """A table with E columns, or without one, and bytes after it."""
    forms = []
    for _ in range(rng.choice([1, 1, 2, 3, 5, rng.randrange(20)])):
        forms.append(rng.choice(E_COUNTS) + 'E' if rng.randrange(5) < 3 else rng.choice(BESIDE))
    names = [None if rng.randrange(4) == 0 else layout_cases.random_name(rng, []) for _ in forms]
    fields = [form_of(text(of)) for of in forms]
    width = sum(size for _, _, size in fields)
    rows = min(rng.choice([0, 1, 1, 2, 3, 9, rng.randrange(150)]), 60000 // max(1, width))
    some = [random_weight(rng) for _ in range(rng.choice([5, 50, 500]))]
    area = b''.join(b''.join(rng.choices(some, k=count)) if letters == 'E' else rng.randbytes(size)
                    for letters, count, size in fields * rows)
    heap, after = [rng.randbytes(rng.choice([0, 0, rng.randrange(300)])) for _ in 'ab']
    records = table(forms, width, rows=rows, pcount=len(heap), names=names,
                    theap=rng.choice([None, rows * width + rng.randrange(len(heap) + 1)]))
    if rng.randrange(3) == 0:
        records += layout_cases.random_scaling(rng, forms)
    if rng.randrange(3) == 0:
        records += layout_cases.random_nulls(rng, forms)
    return ended(records) + area + heap + after


def random_column(rng, file):
    """A column: most often one that is there, by its index or by a name that is nearly its own."""
    header, layout = layout_in(file)
    indexes = range(max(1, len(layout.columns)))
    of_e = [i for i, column in enumerate(layout.columns) if column.form == 'E'] or indexes
    i = rng.choice(of_e if rng.randrange(4) else indexes)
    if rng.randrange(12) == 0:
        return rng.choice([b'%d' % len(indexes), b'999', b'%d' % rng.randrange(2 ** 64), rng.choice(TOO_LARGE)])
    name = noted_name(layout, header, i)
    if name is None or rng.randrange(2) == 0:
        return b'0' * rng.choice([0, 0, 0, 1, 30]) + b'%d' % i
    name = rng.choice([single(name), single(name), single(name), name, layout_cases.nearly(rng, single(name))])
    name = rng.choice([name, name, name.upper(), name.lower(), name.swapcase()])
    return name.replace(b'\0', b'-')[:5000]


def random_page(rng, file):
    """A column, a row and an edition, most of them good."""
    rows = layout_in(file)[1].rows
    row = rng.choice([0, max(0, rows - 1), rng.randrange(rows + 1) if rows else 0, rng.randrange(rows) if rows else 0])
    if rng.randrange(12) == 0:
        row = rng.choice([rows, rows + 1, rng.randrange(2 ** 64), 2 ** 64 - 1])
    edition = rng.choice([1, 2]) if rng.randrange(15) else rng.choice([0, 3, 12, 21, rng.randrange(2 ** 64)])
    words = [random_column(rng, file)] + [b'0' * rng.choice([0, 0, 0, 0, 1, 9]) + b'%d' % of for of in (row, edition)]
    if rng.randrange(25) == 0:
        words[rng.randrange(1, 3)] = rng.choice(NO_NUMBER + TOO_LARGE)
    return words


def random_words(rng, page_of=None):
    """Words of turn or turn-back; or of a page of a file, if one is given. Some are wrong."""
    name = rng.choice([b'table.fits', rng.choice(NAMES), rng.choice(NO_UTF8) if rng.randrange(9) == 0 else b't'])
    words = [rng.choice(list(WAYS)), name] if page_of is None else [b'page', name] + random_page(rng, page_of[0])
    if rng.randrange(60) == 0:
        rng.choice([words.reverse, words.pop, lambda: words.append(b'more'), words.clear])()
    return words


def random_one(seed):
    rng = random.Random(seed)
    if rng.randrange(2):
        return Case('seed %d' % seed, random_words(rng), None if rng.randrange(200) == 0 else random_file(rng), None)
    file = random_weights(rng) if rng.randrange(5) else random_file(rng)
    file = None if rng.randrange(200) == 0 else file
    return Case('seed %d' % seed, random_words(rng, [file]), file, None)


# ---- running the program ----


def run(program, words, folder, **how):
    """What a run writes in a folder."""
    how = {'stdin': subprocess.DEVNULL, 'stdout': subprocess.PIPE, 'stderr': subprocess.PIPE, **how}
    try:
        done = subprocess.run([program] + words, cwd=folder, timeout=60, **how)
    except subprocess.TimeoutExpired:
        return Printed(b'', b'(stopped after 60 seconds)', None)
    return Printed(done.stdout or b'', done.stderr or b'', done.returncode)


def place_of(words, folder):
    """Where the file of a case stands; None where its words name none that can be there."""
    name = words[1] if len(words) > 1 else b'table'
    if len(name) > MOST_ARGUMENT:
        name = b'table'
    return os.path.join(os.fsencode(folder), os.path.normpath(name))


def placed(words, file, folder):
    place = place_of(words, folder)
    if file is not None and not os.path.isdir(place):
        os.makedirs(os.path.dirname(place), exist_ok=True)
        with open(place, 'wb') as to:
            to.write(file)
    return place


def files_in(folder):
    """Each file with its length and when it was written."""
    made = []
    for at, _, names in os.walk(os.fsencode(folder)):
        for name in names:
            told = os.stat(os.path.join(at, name))
            made.append((at, name, told.st_size, told.st_mtime_ns))
    return sorted(made)


def said_elsewhere(words, file, place):
    """A refusal in the words of wrappers/words.sh, beside those of this script; or None."""
    if is_usage(words):
        return None
    file = as_read(words, file)
    refusal = refusal_of(words, file or b'') if len(file or b'') <= LIMIT else None
    # ./cells reads 65,536 bytes of a file, and says so; the words of 14 and 15 are those of a page alone
    if refusal is None or refusal[0] in (14, 15) or (refusal[0] == 10 and len(file) > listing.MOST):
        return None
    script = ['sh', '-c', '. "$0"; words "$@"', WORDS] + ['%d' % number for number in refusal]
    done = subprocess.run(script + [place if file else '/dev/null'], stdout=subprocess.PIPE, check=True)
    return done.stdout, words_of(*refusal, file or b'') + b'\n'


Differs = collections.namedtuple('Differs', 'what expected said folder')


def tried(program, one, expected):
    """Runs a case, and what was turned once more, the other way. The first that differs, or None."""
    folder = tempfile.mkdtemp()
    place = placed(one.words, one.file, folder)
    before = files_in(folder)
    said = run(program, one.words, folder)
    if said != expected:
        return Differs('the run', expected, said, folder)
    if files_in(folder) != before:
        return Differs('the folder', before, files_in(folder), folder)
    elsewhere = said_elsewhere(one.words, one.file, place)
    if elsewhere and elsewhere[0] != elsewhere[1]:
        return Differs('wrappers/words.sh', Printed(elsewhere[1], b'', 0), Printed(elsewhere[0], b'', 0), folder)
    if expected.status == 0 and one.words[0] in OTHER:
        words = [OTHER[one.words[0]], one.words[1]]
        placed(words, said.out, folder)
        back = run(program, words, folder)
        if back != Printed(one.file, b'', 0):
            return Differs('the run back', Printed(one.file, b'', 0), back, folder)
    shutil.rmtree(folder)
    return None


# ---- runs of other kinds ----


def in_shell(program, script, folder):
    """A script of the shell, in which $0 is the program."""
    return run('sh', ['-c', script, program], folder)


def wanted_in(folder, words, named_as=None):
    """What must be written of words that name a file in the folder, or none; and of the file by another name."""
    words, file = [text(word) for word in words.split()], None
    place = place_of(words, folder)
    if os.path.isfile(place):
        with open(place, 'rb') as of:
            file = of.read()
    return printed([words[0], text(named_as)] + words[2:] if named_as else words, file)


def pipe_runs(program, folder):
    """Whoever reads the output closes it, before the program writes or while it does."""
    script = '{ "$0" %s; echo $? >status; } | head -c 10; cat status >&2'
    for words, status in (('turn large', 141), ('turn-back large', 141), ('turn refused', 1), ('turn missing', 1),
                          ('page weights 1 0 2', 141), ('page weights 1 2 1', 1), ('page missing 1 0 1', 1)):
        wanted = wanted_in(folder, words)
        said = in_shell(program, script % words, folder)
        yield 'head -c 10: ' + words, said, Printed(wanted.out[:10], wanted.err + b'%d\n' % status, 0)
    all_words = ('turn large', 'turn small', 'turn refused', 'turn missing', 'page weights 1 1 1', 'page small 0 0 1')
    for words, restored in itertools.product(all_words, (True, False)):
        reader, writer = os.pipe()
        os.close(reader)
        said = run(program, text(words).split(), folder, stdout=writer, restore_signals=restored)
        os.close(writer)
        yield 'a pipe that nobody reads: ' + words, said, Printed(b'', wanted_in(folder, words).err, 141)


def full_runs(program, folder):
    """Standard output or standard error takes nothing."""
    for words in ('turn small', 'turn-back large', 'turn refused', 'turn missing', 'turn long', 'turn', '',
                  'page weights 1 0 1', 'page weights wt 1 2', 'page weights 0 0 1', 'page weights 1 2 1',
                  'page wide 0 0 1', 'page long 1 0 1', 'page weights 1 0', 'page missing 1 0 1'):
        wanted = wanted_in(folder, words)
        no_output = Printed(b'', wanted.err + b'coentrift: cannot write the output\n', 2) if wanted.out else wanted
        no_error = wanted._replace(err=b'')
        for to, said in (('>&-', no_output), ('2>&-', no_error), ('>/dev/full', no_output), ('2>/dev/full', no_error)):
            if '/dev' not in to or os.path.exists('/dev/full'):
                yield '%s %s' % (words, to), in_shell(program, '"$0" %s %s' % (words, to), folder), said


def stack_runs(program, folder):
    """The program on the usual stack, and on a smaller one."""
    for kib, words in itertools.product((8192, 7680), (
            'turn large', 'turn-back large', 'turn long', 'turn refused', 'turn missing', '', 'n' * 100000 + ' n',
            'page weights 1 1 2', 'page weights 0 0 1', 'page wide 0 0 1', 'page refused 1 0 1', 'page long 1 0 1',
            'page weights 1 -1 1')):
        said = in_shell(program, 'ulimit -s %d && exec "$0" %s' % (kib, words), folder)
        yield 'a stack of %d KiB: %s' % (kib, words[:40]), said, wanted_in(folder, words)


def fifo_runs(program, folder):
    """A FIFO: opening one waits for whoever writes to it, which a usage error must not do."""
    for words in ('turn fifo fifo', 'Turn fifo', 'fifo', 'fifo turn', '-- fifo', 'turn ' + './' * 2046 + 'fifo',
                  'turn fifo 0 0 1', 'page', 'page fifo', 'page fifo 0', 'page fifo 0 0', 'page fifo 0 0 1 1',
                  'page fifo 0 0 x', 'page fifo 0 x 1', 'page fifo 0 -1 1', 'Page fifo 0 0 1',
                  'page fifo 0 18446744073709551616 1', 'page fifo 0 0 18446744073709551616',
                  'page fifo 18446744073709551616 0 1', 'page fifo ' + '0' * 4096 + ' 0 1',
                  'page ' + './' * 2046 + 'fifo 0 0 1'):
        yield 'usage, a FIFO', run(program, text(words).split(), folder), Printed(b'', USAGE, 2)
    for name in ('small', 'large', 'refused', 'long'):
        # a part at a time, with a wait between the first ones
        feed = '{ head -c 100; sleep 0.1; head -c 2881; sleep 0.1; cat; } <%s >fifo 2>&1 & exec "$0" turn fifo' % name
        yield 'a FIFO: ' + name, in_shell(program, feed, folder), wanted_in(folder, 'turn ' + name, 'fifo')
        said = in_shell(program, 'cat %s | "$0" turn /dev/stdin' % name, folder)
        yield 'standard input: ' + name, said, wanted_in(folder, 'turn ' + name, '/dev/stdin')
    for words in ('weights 1 0 2', 'weights 0 0 1', 'weights wT 1 1', 'refused 1 0 1', 'long 1 0 1'):
        name, rest = words.split(' ', 1)
        feed = '{ head -c 100; sleep 0.1; head -c 2881; sleep 0.1; cat; } <%s >fifo 2>&1 & exec "$0" page fifo %s'
        yield 'a FIFO: page ' + words, in_shell(program, feed % (name, rest), folder), wanted_in(
            folder, 'page ' + words, 'fifo')


def file_runs(program, folder):
    """Output to a file or after the errors, a table through a link, a device, no file to read."""
    refused_too, wanted = wanted_in(folder, 'turn refused'), wanted_in(folder, 'turn small')
    said = in_shell(program, '"$0" turn refused 2>&1', folder)
    yield 'the errors, then the output', said, Printed(refused_too.err + refused_too.out, b'', 1)
    said = in_shell(program, '"$0" turn small >out && cat out', folder)
    yield 'output to a file', said, wanted
    said = in_shell(program, 'printf before >out; "$0" turn small >>out && cat out', folder)
    yield 'output to the end of a file', said, wanted._replace(out=b'before' + wanted.out)
    said = in_shell(program, '"$0" turn small | "$0" turn-back /dev/stdin | "$0" turn /dev/stdin', folder)
    yield 'three runs, one after the other', said, wanted
    one_page = wanted_in(folder, 'page weights 1 1 2')
    said = in_shell(program, '"$0" turn weights | "$0" turn-back /dev/stdin | "$0" page /dev/stdin Wt 1 2', folder)
    yield 'a page of a table that was turned and turned back', said, one_page
    yield 'a page to a file', in_shell(program, '"$0" page weights 1 1 2 >out && cat out', folder), one_page
    said = in_shell(program, '"$0" page weights 0 0 1 2>&1', folder)
    yield 'the errors of a page, then its output', said, Printed(
        b'coentrift: refused 15 0: ' + text(NO_E) + b'\nrefused 15 0\n', b'', 1)
    yield 'a link', run(program, [b'turn', b'link'], folder), wanted
    yield 'no environment', run(program, [b'turn', b'small'], folder, env={}), wanted
    for name, file in ((b'/dev/null', b''), (b'/dev/zero', bytes(LIMIT + 1))):
        for words in ([b'turn', name], [b'page', name] + PAGE):
            yield 'a device', run(program, words, folder), printed(words, file)
    for name in (b'dangling', b'folder', b'small/', b'locked'):
        if name == b'locked' and os.geteuid() == 0:
            print('left out: an unreadable file, since the user is root', file=sys.stderr)
        else:
            for words in ([b'turn-back', name], [b'page', name] + PAGE):
                yield 'no file to read', run(program, words, folder), printed(words, None)


def fill(folder):
    """The files of the runs of other kinds."""
    few, large = sized(3, 5, heap=2), sized(1020, 2053, heap=212)
    for name, file in (('small', few), ('large', large), ('long', bytes(LIMIT + 1)), ('locked', few),
                       ('refused', ended(without('NAXIS'))), ('weights', many_weights()),
                       ('wide', weights_file(['155345E'], 1, bytes(621380)))):
        placed([b'turn', text(name)], file, folder)
    os.chmod(os.path.join(folder, 'locked'), 0)
    os.mkdir(os.path.join(folder, 'folder'))
    os.mkfifo(os.path.join(folder, 'fifo'))
    os.symlink('small', os.path.join(folder, 'link'))
    os.symlink('nowhere', os.path.join(folder, 'dangling'))


def other_runs(program):
    """The runs of other kinds: what each is for, what was written and what must be."""
    with tempfile.TemporaryDirectory() as folder:
        fill(folder)
        for kind in (pipe_runs, full_runs, stack_runs, fifo_runs, file_runs):
            yield from kind(program, folder)


# ---- the check ----


def short(of):
    """The start of what was written, in ASCII."""
    start = ascii(of[:400].decode('latin-1'))[1:-1]
    return '%d bytes: %s%s' % (len(of), start, ' ..' if len(of) > 400 else '')


def shortened(of):
    return 'status %s\n  standard error %s\n  standard output %s' % (of.status, short(of.err), short(of.out))


def first_difference(said, expected):
    pairs = zip(said, expected)
    return next((k for k, (one, other) in enumerate(pairs) if one != other), min(len(said), len(expected)))


def tell(why, words, found):
    print('%s differs: %s' % (found.what, why))
    print('words: %s' % ascii([word[:100] for word in words]))
    for name, of in (('expected', found.expected), ('written', found.said)):
        print('%s: %s' % (name, shortened(of) if isinstance(of, Printed) else of))
    if isinstance(found.said, Printed) and found.said.out != found.expected.out:
        print('standard output differs from byte %d on' % first_difference(found.said.out, found.expected.out))
    if found.folder:
        print('its files are in %s' % found.folder)


def sort_of(words, wanted):
    """The number of a refusal, or what else comes of it."""
    if wanted.status == 1 and wanted.out:
        return 'refused %s' % wanted.out.split()[1].decode('ascii')
    return {0: 'pages' if words[:1] == [b'page'] else 'turned', 1: 'too long', 2: 'usage'}[wanted.status]


def differences(program, seeds, counts):
    """Runs the cases: what each is for, its words, and what differs or None."""
    for one in named() + [random_one(seed) for seed in seeds]:
        wanted = printed(one.words, one.file)
        counts[sort_of(one.words, wanted)] += 1
        yield one.why, one.words, tried(program, one, wanted)
    for why, said, wanted in other_runs(program):
        counts['of other kinds'] += 1
        yield why, [], None if said == wanted else Differs('the run', wanted, said, None)


def check(program, seeds):
    program = os.path.abspath(program)
    if not os.access(program, os.X_OK):
        sys.exit('no program at %s' % program)
    counts = collections.Counter()
    for why, words, found in differences(program, seeds, counts):
        if found:
            tell(why, words, found)
            print('%d cases, the last one differs' % sum(counts.values()))
            return 1
    print(', '.join('%s: %d' % one for one in sorted(counts.items())), file=sys.stderr)
    print('%d cases, 0 differ' % sum(counts.values()))
    return 0


def self_check():
    """What stands here by hand is what the functions say."""
    header = shown_header()
    assert listing.printed(layout_lines(layout_of(header, 2880), header)) == READ
    with open(os.path.join(ROOT, 'README.md'), encoding='utf-8') as file:
        assert README_PAGE in file.read()
    numbers, errors = set(), set()
    for one in named():
        if one.said is not None:
            assert printed(one.words, one.file) == one.said, '%s: %r' % (one.why, printed(one.words, one.file)[1:])
            numbers.update(re.findall(rb'^refused (\d+)', one.said.out))
            errors.add(one.said.err)
    assert {int(number) for number in numbers} == set(TEXTS) | {15}
    assert {b'coentrift: refused 15 0: ' + text(of) + b'\n' for of in (NO_EDITION, NO_COLUMN, NO_E, SCALED)} <= errors


USAGE_OF_CHECK = 'usage: tests/coentrift.py make | tests/coentrift.py check PROGRAM [--seeds A B]'


def main(words):
    if words == ['make']:
        self_check()
        make()
        return 0
    seeds = ['0', '999']
    if len(words) == 5 and words[2] == '--seeds':
        words, seeds = words[:2], words[3:]
    if len(words) != 2 or words[0] != 'check' or not all(seed.isdigit() for seed in seeds):
        print(USAGE_OF_CHECK, file=sys.stderr)
        return 2
    self_check()
    return check(words[1], range(int(seeds[0]), int(seeds[1]) + 1))


if __name__ == '__main__':
    sys.exit(main(sys.argv[1:]))
