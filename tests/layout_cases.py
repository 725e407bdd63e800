#!/usr/bin/env python3
"""Writes the cases of the program `layout_cases` and what it must print of them.

From the repository's root:

    python3 tests/layout_cases.py               crates/layout_cases/data/cases.bin and crates/layout_cases/stdout
    python3 tests/layout_cases.py SEED FOLDER   FOLDER/data/cases.bin and FOLDER/stdout: random cases alone

The counts of accepted cases and of each refusal go to standard error. `named()[57].why` tells what
case 57 of the first run is for.

The reader below is not a copy of the code it tests: it was written from the request's statement of
a table's header, which docs/FORMAT.md puts in our words. Records, names and values are those of
header_cases.py, which is such a reader too.

A case is a header, the length of a data area (zeros), how many of the header's bytes are lent in the
second round of name calls, and the names that are sought.
"""
import collections
import math
import os
import random
import re
import struct
import sys
from fractions import Fraction

sys.dont_write_bytecode = True

from header_cases import BLOCK, END, GOOD, LIMIT, NINE, SLOTS, TNULL, TSCAL, TZERO, USED
from header_cases import end_of, ended, field_at, keyword, name_of, null_of, padded, real_of, record, records_of, text
from header_cases import value_of

AREA = 65536

# the cases by name stay below this, so that the repository stays small; the program reads any length
MOST_NAMED = 950000

# ---- what docs/FORMAT.md says of a table's header ----

TABLE_NAMES = ['XTENSION', 'BITPIX', 'NAXIS', 'NAXIS1', 'NAXIS2', 'PCOUNT', 'GCOUNT', 'TFIELDS', 'THEAP']

# the value a name must have
ONLY = {'XTENSION': b'BINTABLE', 'BITPIX': 8, 'NAXIS': 2, 'GCOUNT': 1}

# what tells of a column's numbers; these names may stand twice in the index
NUMBER_NAMES = TSCAL + TZERO + TNULL

# the largest size that is a size at all (None for no limit), and the largest that is read
SIZES = {
    'NAXIS1': (None, 1048576), 'NAXIS2': (None, 16777216), 'PCOUNT': (None, 2147483647), 'TFIELDS': (999, 64),
}

WIDTH = {'L': 1, 'B': 1, 'A': 1, 'I': 2, 'J': 4, 'E': 4, 'K': 8, 'D': 8, 'C': 8, 'M': 16}
DESCRIPTOR = {'P': 8, 'Q': 16}
ELEMENTS = b'LXBIJKAEDCM'
LARGEST_COUNT = 8388608
MOST_DESCRIPTORS = 1

# what may be scaled, and what may have missing values; of P and Q it is the element that counts
NUMBERS = 'BIJKED'
INTEGERS = 'BIJK'

# the scaling is None where neither keyword stands in the header, else the factor and the zero; the null is None where
# TNULLn is missing, else its integer
Column = collections.namedtuple('Column', 'form count start size stretch scaling null')
Layout = collections.namedtuple('Layout', 'rows naxis1 pcount theap columns')
EMPTY = Layout(0, 0, 0, 0, [])


class Refused(Exception):
    """A refusal: its number and its place."""


def form_of(of):
    """(letters, count, bytes of the field), or None for a bad form. The count of P and Q is 1, a
    descriptor, or 0, an empty field."""
    found = re.match(rb'([0-9]*)([LXBIJKAEDCMPQ])', of)
    if not found:
        return None
    count = int(found.group(1)) if found.group(1) else 1
    letter = found.group(2).decode('ascii')
    if count > (MOST_DESCRIPTORS if letter in DESCRIPTOR else LARGEST_COUNT):
        return None
    if letter in DESCRIPTOR:
        element = of[found.end():found.end() + 1]
        if element == b'' or element not in ELEMENTS:
            return None
        return letter + element.decode('ascii'), count, DESCRIPTOR[letter] * count
    if letter == 'X':
        return letter, count, -(-count // 8)
    return letter, count, WIDTH[letter] * count


def single(of):
    """Each two quotes, from the front, as one."""
    return of.replace(b"''", b"'")


def integer_at(header, k):
    kind, *numbers = value_of(header, k).split()
    if kind != 'integer':
        raise Refused(5, k)
    return int(numbers[0])


def string_at(header, k):
    """The stretch of the string in record k."""
    kind, *numbers = value_of(header, k).split()
    if kind != 'string':
        raise Refused(5, k)
    return int(numbers[0]), int(numbers[1])


def bytes_at(header, stretch):
    start, length = stretch
    return header[start:start + length]


def used_records(header):
    """Where each used name has its record, by checks 1, 2 and 3."""
    if len(header) == 0 or len(header) > 57600 or len(header) % BLOCK != 0:
        raise Refused(1, 0)
    end = end_of(header)
    if end is None:
        raise Refused(2, 0)
    used, found = set(USED), {}
    for k, card in enumerate(records_of(header)[:end]):
        name = name_of(card)
        if name in used:
            if name in found:
                raise Refused(3, k)
            found[name] = k
    return {name.decode('ascii'): k for name, k in found.items()}


def number_records(header):
    """The records of each TSCALn, TZEROn and TNULLn, all that hold a value before END."""
    sought, found = set(NUMBER_NAMES), collections.defaultdict(list)
    for k, card in enumerate(records_of(header)[:end_of(header)]):
        if name_of(card) in sought:
            found[name_of(card).decode('ascii')].append(k)
    return found


def check_value(name, value, k):
    """Checks 6 and 7 of a name that has a range of its own."""
    if name in ONLY and value != ONLY[name]:
        raise Refused(6, k)
    if name in SIZES:
        size, limit = SIZES[name]
        if value < 0 or (size is not None and value > size):
            raise Refused(6, k)
        if value > limit:
            raise Refused(7, k)


def table_values(header, where):
    """The values of the names of the whole table, by checks 4 to 7."""
    values = {}
    for name in TABLE_NAMES:
        main = values['NAXIS1'] * values['NAXIS2'] if name == 'THEAP' else None
        if name not in where:
            if name != 'THEAP':
                raise Refused(4, 0)
            values[name] = main
            continue
        k = where[name]
        if name == 'XTENSION':
            values[name] = single(bytes_at(header, string_at(header, k)))
        else:
            values[name] = integer_at(header, k)
        check_value(name, values[name], k)
        if name == 'THEAP' and not main <= values[name] <= main + values['PCOUNT']:
            raise Refused(6, k)
    return values


def scaling_of(header, given, n, letters):
    """The factor and the zero of column n by check 16, a missing one 1 and 0; None if both are missing."""
    named = [given.get('%s%d' % (root, n), []) for root in ('TSCAL', 'TZERO')]
    if not any(named):
        return None
    if letters[-1] not in NUMBERS or any(len(records) > 1 for records in named):
        raise Refused(16, n)
    made = tuple(real_of(field_at(header, records[0])) if records else missing
                 for records, missing in zip(named, (1.0, 0.0)))
    if None in made:
        raise Refused(16, n)
    return made


def null_by_17(header, given, n, letters):
    """The null of column n by check 17; None if it has none."""
    records = given.get('TNULL%d' % n, [])
    if not records:
        return None
    null = null_of(field_at(header, records[0]))
    if letters[-1] not in INTEGERS or len(records) > 1 or null is None:
        raise Refused(17, n)
    return null


def column_of(header, where, given, n, start):
    """Column n, counted from 1, by checks 4, 5, 8, 16 and 17."""
    if 'TFORM%d' % n not in where:
        raise Refused(4, n)
    form = form_of(single(bytes_at(header, string_at(header, where['TFORM%d' % n]))))
    if form is None:
        raise Refused(8, n)
    letters, count, size = form
    stretch = string_at(header, where['TTYPE%d' % n]) if 'TTYPE%d' % n in where else None
    scaling = scaling_of(header, given, n, letters)
    return Column(letters, count, start, size, stretch, scaling, null_by_17(header, given, n, letters))


def layout_of(header, area):
    """The layout, or a refusal raised."""
    where = used_records(header)
    values = table_values(header, where)
    given = number_records(header)
    columns, start = [], 0
    for n in range(1, values['TFIELDS'] + 1):
        columns.append(column_of(header, where, given, n, start))
        start += columns[-1].size
    if start != values['NAXIS1']:
        raise Refused(9, 0)
    if area < values['NAXIS1'] * values['NAXIS2'] + values['PCOUNT']:
        raise Refused(10, 0)
    return Layout(values['NAXIS2'], values['NAXIS1'], values['PCOUNT'], values['THEAP'], columns)


def read(header, area):
    """('accepted', the layout) or ('refused NUMBER PLACE', the empty layout)."""
    try:
        return 'accepted', layout_of(header, area)
    except Refused as refusal:
        return 'refused %d %d' % refusal.args, EMPTY


def noted_name(layout, header, i):
    """The name of column i as it stands in the header lent, or None."""
    if i >= len(layout.columns) or layout.columns[i].stretch is None:
        return None
    start, length = layout.columns[i].stretch
    if start + length > len(header):
        return None
    return header[start:start + length]


def in_capitals(name):
    """The bytes 97 to 122, a to z, as 65 to 90, A to Z; every other byte as it is, also those above 127."""
    return bytes(byte - 32 if 97 <= byte <= 122 else byte for byte in name)


def find(layout, header, sought):
    """The first column of that name, in either case, or None."""
    for i in range(len(layout.columns)):
        name = noted_name(layout, header, i)
        if name is not None and in_capitals(single(name)) == in_capitals(sought):
            return i
    return None


def double_bits(of):
    return int.from_bytes(struct.pack('>d', of), 'big')


def said_of(case):
    """The lines for one case, after its number."""
    outcome, layout = read(case.header, case.area)
    lent = [('full', case.header), ('cut', case.header[:case.cut])]
    lines = [outcome, 'table %d columns %d rows %d bytes %d pcount %d theap' % (
        len(layout.columns), layout.rows, layout.naxis1, layout.pcount, layout.theap)]
    for i, (form, count, start, size, stretch, scaling, null) in enumerate(layout.columns):
        noted = 'missing' if stretch is None else 'stretch %d %d' % stretch
        if scaling is not None:
            noted += ' factor %d zero %d' % tuple(double_bits(of) for of in scaling)
        if null is not None:
            noted += ' null %d' % null if -2 ** 63 <= null < 2 ** 63 else ' null out of range'
        lines.append('column %d %s %d at %d bytes %d %s' % (i, form, count, start, size, noted))
    for i in range(len(layout.columns) + 1):
        for word, header in lent:
            name = noted_name(layout, header, i) or b''
            lines.append(' '.join(['name %d %s' % (i, word)] + [str(byte) for byte in name]))
    for j, sought in enumerate(case.sought):
        for word, header in lent:
            found = find(layout, header, sought)
            lines.append('find %d %s %s' % (j, word, 'none' if found is None else found))
    return lines


# ---- making cases ----

Case = collections.namedtuple('Case', 'why outcome header area cut sought')

FAR = 2 ** 32 - 1
POS_END = 654  # where the stretch of the name POS ends in a header that begins as GOOD does


def case(why, outcome, records, area=12, cut=POS_END, sought=(b'POS', b'WT', b'')):
    """What it is for, how it must come out (by hand), a list of records or a whole header, and the rest."""
    header = records if isinstance(records, bytes) else ended(records)
    return Case(why, outcome, header, area, cut, [text(name) for name in sought])


def quoted(of):
    return b"'" + text(of) + b"'"


def has(card, name):
    return name_of(card) == text(name)


# GOOD: XTENSION 0, BITPIX 1, NAXIS 2, NAXIS1 3, NAXIS2 4, PCOUNT 5, GCOUNT 6, TFIELDS 7, TTYPE1 8, TFORM1 9,
# TTYPE2 10, TFORM2 11


def changed(*pairs, of=None):
    """The records (GOOD) with other values at these names: name, value, name, value."""
    made = list(GOOD if of is None else of)
    for name, value in zip(pairs[::2], pairs[1::2]):
        places = [k for k, card in enumerate(made) if has(card, name)]
        assert len(places) == 1, name
        made[places[0]] = keyword(name, value)
    return made


def without(*names, of=None):
    """The records (GOOD) without those of these names."""
    return [card for card in (GOOD if of is None else of) if not any(has(card, name) for name in names)]


def inserted(at, *cards, of=None):
    made = GOOD if of is None else of
    return made[:at] + list(cards) + made[at:]


def with_heap(theap, pcount=5):
    """The example with PCOUNT and with THEAP in record 8, so that TTYPE1 is record 9, TTYPE2 record 11."""
    return inserted(8, keyword('THEAP', theap), of=changed('PCOUNT', '%d' % pcount))


def table(forms, naxis1, rows=1, pcount=0, theap=None, names=()):
    """Eight records (nine with THEAP), then each TFORMn, then each TTYPEn whose name is not None."""
    made = [
        keyword('XTENSION', "'BINTABLE'"), keyword('BITPIX', '8'), keyword('NAXIS', '2'),
        keyword('NAXIS1', '%d' % naxis1), keyword('NAXIS2', '%d' % rows), keyword('PCOUNT', '%d' % pcount),
        keyword('GCOUNT', '1'), keyword('TFIELDS', '%d' % len(forms)),
    ]
    if theap is not None:
        made.append(keyword('THEAP', '%d' % theap))
    made += [keyword('TFORM%d' % n, quoted(form)) for n, form in enumerate(forms, 1)]
    made += [keyword('TTYPE%d' % n, quoted(name)) for n, name in enumerate(names, 1) if name is not None]
    return made


BLANK = record('')
REMARK = record('COMMENT a remark')


# ---- the cases by name ----


def example_cases():
    sought = ['POS', 'WT', '', 'pos', 'POS ', ' POS', 'PO', 'POSX', 'POS     ', 'wt', 'W', 'T', b'POS\0', 'POSWT',
              'P' * 255]
    return [
        case('the example; cut exactly at the end of POS', 'accepted', GOOD, sought=sought),
        case('cut one byte before the end of POS', 'accepted', GOOD, cut=653, sought=sought),
        case('cut far above the length; an area one longer; no name sought', 'accepted', GOOD, area=13, cut=FAR,
             sought=[]),
        case('cut exactly at the end of WT; the longest area', 'accepted', GOOD, area=AREA, cut=813),
        case('cut one byte before it; records after END that would be second ones', 'accepted',
             padded(GOOD + [END] + GOOD), cut=812),
        case('cut at 0: no header lent; END is the first record of the second block', 'accepted',
             padded(GOOD + [BLANK] * 24 + [END]), cut=0),
    ]


def long_header():
    """720 records: 64 columns of one byte with names far apart, END the very last record."""
    made = table(['1B'] * 64, 64, rows=3)
    for n in range(1, 65):
        made += [REMARK] * (72 + 10 * n - len(made)) + [keyword('TTYPE%d' % n, quoted('C%d' % n))]
    made += [REMARK] * (719 - len(made))
    return b''.join(made + [END])


def whole_cases():
    """Refusals 1, 2 and 3, and what lies beside them."""
    example, long = ended(GOOD), long_header()
    two = keyword('NAXIS', '2')
    return [
        case('1: 2,881 bytes', 'refused 1 0', example + b' '),
        case('1: no header', 'refused 1 0', b''),
        case('1 before 2: 80 blank bytes', 'refused 1 0', BLANK),
        # TTYPEn is record 72 + 10n; the cut is where C33 ends
        case('the longest header, 57,600 bytes, 64 names all over it', 'accepted', long, area=192, cut=402 * 80 + 14,
             sought=['C1', 'C64', 'C33', 'C34', 'C65', 'C', 'C6', 'c64', '64', '']),
        case('1: a block more than the longest', 'refused 1 0', long + b' ' * BLOCK, area=192),
        case('2: 36 blank records', 'refused 2 0', b' ' * BLOCK),
        case('2 before 3: NAXIS twice and no END', 'refused 2 0', padded(inserted(9, two))),
        case('3: NAXIS in records 2 and 9', 'refused 3 9', inserted(9, two)),
        case('3: TTYPEn twice with n above TFIELDS, the second unreadable', 'refused 3 14',
             GOOD + [keyword('TTYPE999', "'C'"), BLANK, keyword('TTYPE999', '8 x')]),
        case('3 before 4, 5 and 6: TFORM2 twice, no BITPIX, NAXIS a string, XTENSION wrong', 'refused 3 11',
             without('BITPIX', of=changed('XTENSION', "'IMAGE'", 'NAXIS', "'2'")) + [keyword('TFORM2', "'1J'")]),
        case('a name again without a value, or with another name', 'accepted',
             GOOD + [keyword('NAXIS', '3', '=='), keyword('NAXIS', '3', ' ='), keyword('TFORM01', '3'), REMARK,
                     keyword('TFORM01', '3'), keyword('TTYPE0', '3'), keyword(' TFIELDS', '9')], cut=814),
    ]


def missing_cases():
    """Refusal 4."""
    return [case('4: no %s' % name, 'refused 4 0', without(name)) for name in TABLE_NAMES[:8]] + [
        case('4: TFIELDS 2, no TFORM2', 'refused 4 2', without('TFORM2')),
        case('4: TFORM10 of 12', 'refused 4 10', without('TFORM10', of=table(['1B'] * 12, 12))),
    ]


def unread_cases():
    """Refusal 5, and the values next to unreadable ones."""
    return [
        case('5: XTENSION an integer, before 5 of BITPIX', 'refused 5 0', changed('XTENSION', '8', 'BITPIX', "'8'")),
        case("5: BITPIX is '8'", 'refused 5 1', changed('BITPIX', "'8'")),
        case('5: NAXIS of 19 digits, 18 of them zeros, before 5 of NAXIS1', 'refused 5 2',
             changed('NAXIS', '0' * 18 + '2', 'NAXIS1', "'6'")),
        case('5: NAXIS1 a string', 'refused 5 3', changed('NAXIS1', "'6'")),
        case('5: NAXIS2 of 19 nines', 'refused 5 4', changed('NAXIS2', '9' * 19)),
        case('5: PCOUNT with text after it', 'refused 5 5', changed('PCOUNT', '0 x')),
        case('5: GCOUNT with nothing but a comment, before 5 of TFIELDS', 'refused 5 6',
             changed('GCOUNT', ' / one', 'TFIELDS', "'2'")),
        case('5: TFIELDS a string', 'refused 5 7', changed('TFIELDS', "'2'")),
        case('5: THEAP a string', 'refused 5 8', with_heap("'12'"), area=17),
        case('5: TFORM2 an integer', 'refused 5 11', changed('TFORM2', '1')),
        case('5: TTYPE1 an integer', 'refused 5 8', changed('TTYPE1', '1')),
        case('5: TTYPE2 whose quotes do not pair', 'refused 5 10', changed('TTYPE2', "'it's'")),
        case('18 digits, signs, zeros in front, comments', 'accepted',
             changed('BITPIX', '+8', 'NAXIS', '0' * 17 + '2', 'NAXIS2', '   +2/rows', 'GCOUNT', '+' + '0' * 17 + '1',
                     'TFIELDS', '02 /', of=with_heap('0' * 16 + '12')), area=17, cut=734),
    ]


def wrong_cases():
    """Refusals 6 and 7, and the values next to them."""
    return [
        case('BINTABLE with spaces after it, late in its record', 'accepted',
             changed('XTENSION', "   'BINTABLE   '/ 'x'")),
        case('6: BINTABL', 'refused 6 0', changed('XTENSION', "'BINTABL '")),
        case('6: bintable', 'refused 6 0', changed('XTENSION', "'bintable'")),
        case('6: BINTABLE after a space', 'refused 6 0', changed('XTENSION', "' BINTABLE'")),
        case('6: BITPIX -8', 'refused 6 1', changed('BITPIX', '-8')),
        case('6: NAXIS 2 and 2 to the 32nd', 'refused 6 2', changed('NAXIS', '4294967298')),
        case('6: GCOUNT 2', 'refused 6 6', changed('GCOUNT', '2')),
        case('6: NAXIS1 -1, before 6 of NAXIS2', 'refused 6 3', changed('NAXIS1', '-1', 'NAXIS2', '-1')),
        case('6: NAXIS2 -1, before 6 of PCOUNT', 'refused 6 4', changed('NAXIS2', '-1', 'PCOUNT', '-1')),
        case('6: PCOUNT -999999999999999999', 'refused 6 5', changed('PCOUNT', '-' + '9' * 18)),
        case('6: TFIELDS -1', 'refused 6 7', changed('TFIELDS', '-1')),
        case('6 before 7: TFIELDS 1000', 'refused 6 7', changed('TFIELDS', '1000')),
        case('7: TFIELDS 999', 'refused 7 7', changed('TFIELDS', '999')),
        case('7: TFIELDS 65', 'refused 7 7', changed('TFIELDS', '65')),
        case('4, not 7: TFIELDS 64 with two forms', 'refused 4 3', changed('TFIELDS', '64')),
        case('NAXIS1 1,048,576 without rows', 'accepted', table(['1048576A'], 1048576, rows=0), area=0),
        case('7: NAXIS1 1,048,577', 'refused 7 3', table(['1048577A'], 1048577, rows=0), area=0),
        case('NAXIS2 16,777,216 of 0 bytes', 'accepted', table(['0E'], 0, rows=16777216, names=['POS']), area=0,
             cut=734),
        case('7: NAXIS2 16,777,217', 'refused 7 4', table(['0E'], 0, rows=16777217), area=0),
        case('PCOUNT 2,147,483,647: only the area is too short', 'refused 10 0', changed('PCOUNT', '2147483647')),
        case('7: PCOUNT 2,147,483,648', 'refused 7 5', changed('PCOUNT', '2147483648')),
    ]


def heap_cases():
    """THEAP, main size and PCOUNT."""
    # 2 to the 44th, and with PCOUNT's largest added
    main, all_bytes = 17592186044416, 17594333528063

    def large(theap):
        return table(['1048576B'], 1048576, rows=16777216, pcount=2147483647, theap=theap)

    return [
        case('6: THEAP one below the main size', 'refused 6 8', with_heap('11'), area=17),
        case('THEAP at the main size', 'accepted', with_heap('12'), area=17, cut=734),
        case('THEAP at the main size and PCOUNT', 'accepted', with_heap('17'), area=17, cut=892),
        case('6: THEAP one above the main size and PCOUNT', 'refused 6 8', with_heap('18'), area=AREA),
        case('THEAP, PCOUNT and NAXIS2 minus zero', 'accepted',
             changed('NAXIS2', '-0', 'PCOUNT', '-0', of=with_heap('-0')), area=0),
        case('a heap without THEAP, the area exact', 'accepted', changed('PCOUNT', '5'), area=17),
        case('the largest sizes, THEAP at the very end: 10', 'refused 10 0', large(all_bytes), area=AREA),
        case('6: the largest sizes, THEAP one more', 'refused 6 8', large(all_bytes + 1), area=AREA),
        case('6: the largest sizes, THEAP one below the main size', 'refused 6 8', large(main - 1), area=AREA),
        case('10: a main size of 2 to the 32nd, an area of 0', 'refused 10 0', table(['65536B'], 65536, rows=65536),
             area=0),
        case('the area full: 65,536 bytes', 'accepted', table(['1024D'], 8192, rows=8, names=['POS']), area=AREA,
             cut=733),
        case('10: 65,537 bytes for an area of 65,536', 'refused 10 0', table(['1024D'], 8192, rows=8, pcount=1),
             area=AREA),
    ]


def sum_cases():
    """Refusals 9 and 10."""
    return [
        case('9: 1I, NAXIS1 3', 'refused 9 0', table(['1I'], 3), area=3),
        case('TFIELDS 0, NAXIS1 0, rows and a heap, a name that is no column', 'accepted',
             table([], 0, rows=7, pcount=9, theap=4) + [keyword('TTYPE1', "'POS'")], area=9, cut=FAR),
        case('9: TFIELDS 0, NAXIS1 1', 'refused 9 0', table([], 1), area=1),
        case('9: 2 to the 32nd and 6 bytes, NAXIS1 6', 'refused 9 0', table(['8388608M'] * 32 + ['1I', '1J'], 6),
             area=6),
        case('10: 11 bytes for 12', 'refused 10 0', GOOD, area=11),
        case('NAXIS2 0 needs no area', 'accepted', changed('NAXIS2', '0'), area=0),
    ]


def odd_order():
    """The example with a heap, from the last record to the first, among records of no interest."""
    first, *rest = with_heap('14')[::-1]
    return [BLANK, first, REMARK, keyword('EXTNAME', "'x'"), BLANK] + [
        card for pair in zip(rest, [BLANK, REMARK, keyword('TUNIT1', '8')] * 4) for card in pair]


def order_cases():
    """Which of several faults is told, and at which place."""
    # TFORM2 1, TTYPE2 5, TFORM1 7, TTYPE1 9, THEAP 11, TFIELDS 13, GCOUNT 15, PCOUNT 17, NAXIS2 19, NAXIS1 21,
    # NAXIS 23, BITPIX 25, XTENSION 27
    odd = odd_order()
    lent = {'area': 17, 'cut': 5 * 80 + 13}
    return [
        case('records from the last to the first, others between', 'accepted', odd, **lent),
        case('XTENSION before GCOUNT, by name and not by record', 'refused 6 27',
             changed('XTENSION', "'BINTABLES'", 'GCOUNT', '2', of=odd), **lent),
        case('7 of PCOUNT before 6 of GCOUNT', 'refused 7 17',
             changed('PCOUNT', '2147483648', 'GCOUNT', '2', of=odd), **lent),
        case('6 of THEAP, which stands before NAXIS1', 'refused 6 11', changed('NAXIS1', '8', of=odd), **lent),
        case('5 of TFORM1 before 5 of TTYPE1', 'refused 5 7', changed('TFORM1', '1', 'TTYPE1', '1', of=odd), **lent),
        case('5 of TTYPE1 before 5 of TFORM2', 'refused 5 9', changed('TTYPE1', '1', 'TFORM2', '1', of=odd), **lent),
        case('6 of BITPIX before 4 of NAXIS', 'refused 6 1', without('NAXIS', of=changed('BITPIX', '16'))),
        case('5 of NAXIS before 4 of TFIELDS', 'refused 5 2', without('TFIELDS', of=changed('NAXIS', "'2'"))),
        case('4 of BITPIX before 5 of NAXIS and 6 of GCOUNT', 'refused 4 0',
             without('BITPIX', of=changed('NAXIS', "'2'", 'GCOUNT', '2'))),
        case('7 of TFIELDS before 6 of THEAP', 'refused 7 7', changed('TFIELDS', '65', of=with_heap('18')), area=17),
        case('6 of THEAP before 4 of TFORM1', 'refused 6 8', without('TFORM1', of=with_heap('18')), area=17),
        case('5 of TTYPE1 before 4 of TFORM2', 'refused 5 8', without('TFORM2', of=changed('TTYPE1', '1'))),
        case('8 of TFORM1 before 5 of TTYPE1', 'refused 8 1', changed('TFORM1', "'3Z'", 'TTYPE1', '1')),
        case('8 of TFORM2 before 9', 'refused 8 2', changed('TFORM1', "'2I'", 'TFORM2', "'3Z'")),
        case('5 of TTYPE2 before 9', 'refused 5 10', changed('NAXIS1', '7', 'TTYPE2', '1')),
        case('9 before 10', 'refused 9 0', changed('NAXIS1', '7'), area=0),
    ]


ITEM_FORMS = ['L', 'X', 'B', 'I', 'J', 'K', 'A', 'E', 'D', 'C', 'M']


def every_item(count):
    """The letters of items with these digits: 53 bytes for each of the count, and those of X."""
    return [count + form for form in ITEM_FORMS]


def every(count):
    """All the letters with these digits; where they mean 1 or 0, 24 bytes more for P and Q, or none."""
    return every_item(count) + [count + 'PE', count + 'QD']


# each is the second form of three
BAD_FORMS = [
    ('a letter that is no form', '3Z'),
    ('a space in front', ' 1E'),
    ('digits alone', '8'),
    ('an empty text', ''),
    ('a text of spaces', '   '),
    ('a minus sign', '-1E'),
    ('a plus sign', '+1E'),
    ('a lower-case letter', '1e'),
    ('a descriptor without an element', '1P'),
    ('a descriptor without an element, a length after it', '1P(20)'),
    ('a descriptor with a bad element', '1QZ'),
    ('a descriptor of descriptors', '1PQ'),
    ('a descriptor with a lower-case element', 'Qe'),
    ('count 0 of descriptors without an element', '0P'),
    ('count 0 of descriptors with a bad element', '0PZ'),
    ('two descriptors without an element', '2P'),
    ('nine descriptors and a rest', '9PAA'),
    ('two descriptors in 30 digits', '2'.zfill(30) + 'QX'),
    ('a count of 2 to the 128th and 1', '340282366920938463463374607431768211457E'),
    ('60 nines', '9' * 60 + 'E'),
    ('60 nines of a descriptor', '9' * 60 + 'PE'),
    ('30 digits, zeros in front, 2 to the 32nd and 1', '4294967297'.zfill(30) + 'X'),
]


def form_cases():
    elements = ['1P' + letter for letter in 'LXBIJKAEDCM'] + ['Q' + letter for letter in 'LXBIJKAEDCM']
    rests = ['E', '1E and more', '1J1J', "2I''", '1EZ', '3A/', '8X-', '1B ', 'PE(20)', '1QD(5)', '1PX (', '0PM', '0QC',
             '1PAA']
    bits = ['0X', '1X', '7X', '8X', '9X', '15X', '16X', '17X', '64X', '65X']
    made = [
        case('every letter without digits and with 0', 'accepted', table(every('') + every('0'), 78), area=78),
        case('every letter with 1 and 7', 'accepted', table(every('1') + every_item('7'), 78 + 372),
             area=450),
        case('every letter with 8 and 9', 'accepted', table(every_item('8') + every_item('9'), 425 + 479),
             area=904),
        case('every letter with 12, and with 5 in 30 digits', 'accepted',
             table(every_item('12') + every_item('5'.zfill(30)), 638 + 266), area=904),
        case('P and Q with every element letter', 'accepted', table(elements, 88 + 176), area=264),
        # 4 4 4 4 4 3 1 1 8 16 8 0 0 8 and 0 1 1 1 2 2 2 3 8 9 bytes
        case('what comes after a form; bits in bytes', 'accepted', table(rests + bits, 65 + 29), area=94),
        case('the largest count, in 60 digits, of bits', 'accepted',
             table(['8388608'.zfill(60) + 'X'], 1048576, rows=0), area=0),
        case('8: the largest count, of descriptors', 'refused 8 1', table(['8388608PE', '8388608QX', '8388607PI'], 32),
             area=32),
        case('9, not 8: every letter with the largest count', 'refused 9 0',
             table(every_item('8388608') + ['1PE', '1QD'], 1048576, rows=0), area=0),
    ]
    for k, form in enumerate(every_item('8388609') + ['2PE', '2QD']):
        forms = every('1')
        forms[k] = form
        made.append(case('8: one above the largest count, %s' % form, 'refused 8 %d' % (k + 1), table(forms, 78),
                         area=78))
    for why, form in BAD_FORMS:
        made.append(case('8: ' + why, 'refused 8 2', table(['1E', form, '1E'], 12)))
    return made


def empty_field_cases():
    """Descriptors that are not there, which are empty fields, and two or more of them, which are a bad form."""
    among = table(['0PE', '1I', '0QD', '0PX', '1J', '00PE'], 6, rows=2, names=['NO', 'POS', '', None, 'WT', 'AFT'])
    # 8 8 8 8 0 0 16 0 16 0 bytes
    written = ['PE', '1PE', 'PE(20)', '00001PE', '0PE(20)', '00QD', 'QD', '0' * 60 + 'QX', '1'.zfill(60) + 'QX',
               '0PAA']
    none = ['0P' + letter for letter in 'LXBIJKAEDCM'] + ['0Q' + letter for letter in 'LXBIJKAEDCM']
    return [
        case('`0PE` alone: rows of no bytes, a heap', 'accepted', table(['0PE'], 0, rows=7, pcount=5, names=['POS']),
             area=5, cut=734),
        case('`0QD` alone, no rows', 'accepted', table(['0QD'], 0, rows=0, names=['WT']), area=0, cut=732),
        case('9: `0PE` alone, NAXIS1 8', 'refused 9 0', table(['0PE'], 8), area=8),
        # TTYPE1 is record 14, TTYPE2 record 15
        case('empty descriptors first, side by side between others, and last; cut at the end of POS', 'accepted',
             among, cut=1214, sought=['NO', 'POS', 'WT', 'AFT', '', 'N', 'PE']),
        case('9: the same, NAXIS1 with 8 bytes more', 'refused 9 0', changed('NAXIS1', '14', of=among), area=28),
        case('one descriptor and none in many digits', 'accepted', table(written, 64), area=64),
        case('P and Q of count 0 with every element letter: 16,777,216 rows of no bytes', 'accepted',
             table(none, 0, rows=16777216), area=0),
        case('8: `2PE` alone, with the bytes of two', 'refused 8 1', table(['2PE'], 16), area=16),
        case('8: `2QD` first, before 5 of TTYPE1 and 8 of TFORM2', 'refused 8 1',
             table(['2QD', '3Z', '1E'], 36) + [keyword('TTYPE1', '1')], area=36),
        case('8: `2PE` last behind `0PE`, before 9', 'refused 8 3', table(['1E', '0PE', '2PE'], 5), area=5),
    ]


def counted_form_cases():
    """Forms of P and Q with counts, in the bytes that one descriptor each would take whatever its count: at 0 the row
    has fewer, and above 1 the form is bad."""
    rests = ['E', '1E and more', '1J1J', "2I''", '1EZ', '3A/', '8X-', '1B ', 'PE(20)', '1QD(5)', '2PX (', '0PM', '0QC',
             '9PAA']
    bits = ['0X', '1X', '7X', '8X', '9X', '15X', '16X', '17X', '64X', '65X']
    made = [
        case('9: every letter without digits and with 0', 'refused 9 0', table(every('') + every('0'), 78 + 24),
             area=102),
        case('8: every letter with 1 and 7', 'refused 8 25', table(every('1') + every('7'), 78 + 396), area=474),
        case('8: every letter with 8 and 9', 'refused 8 12', table(every('8') + every('9'), 449 + 503), area=952),
        case('8: every letter with 12, and with 5 in 30 digits', 'refused 8 12',
             table(every('12') + every('5'.zfill(30)), 662 + 290), area=952),
        case('8: what comes after a form; bits in bytes', 'refused 8 11', table(rests + bits, 89 + 29), area=118),
        case('8, not 9: every letter with the largest count', 'refused 8 12',
             table(every('8388608'), 1048576, rows=0), area=0),
    ]
    for k, form in ((11, '8388609PE'), (12, '8388609QD')):
        forms = every('1')
        forms[k] = form
        made.append(case('8: one above the largest count of items, %s' % form, 'refused 8 %d' % (k + 1),
                         table(forms, 78), area=78))
    return made


# TTYPE2 is record 21, its string starts at byte 1,691; each next one 80 further
NAMES = [
    None, '', '   ', 'A  ', "it''s", "''", 'a/b', 'DUP', 'DUP  ', '  lead', b'\x7f\x80\xff\0\t', "ab''''cd''", 'AB',
]
SOUGHT = [
    '', ' ', 'A', 'A ', 'A  ', 'a', "it's", "it''s", "it'''s", 'its', "'", "''", "''''", 'a/b', 'a/', 'DUP', 'DUP  ',
    'dup', 'DU', 'DUPE', '  lead', 'lead', ' lead', b'\x7f\x80\xff\0\t', b'\x7f\x80\xff\0', b'\x7f\x80\xff', "ab''cd'",
    "ab''''cd''", "ab'cd'", 'AB', 'B', 'AB\0',
]


def name_cases():
    blanks = table(['1B'] * 13, 13, names=[None, '  ', None, ''])
    backward = table(['1B'] * 3, 3) + [keyword('TTYPE%d' % n, "'SAME'") for n in (3, 2, 1)]
    full = table(['1B'] * 6, 6) + [
        keyword('TTYPE1', quoted('x' * 68)),
        keyword('TTYPE2', quoted("''" * 34)),
        keyword('TTYPE3', "   'late'  / a 'comment'"),
        keyword('TTYPE4', quoted('tail'.ljust(68))),
        keyword('TTYPE5', ' ' * 68 + "''"),
        keyword('TTYPE6', ' ' * 67 + "'x'"),
    ]
    beyond = GOOD + [
        keyword('TTYPE3', '5'), keyword('TFORM3', "'1I"), keyword('TFORM999', '7'), keyword('TTYPE65', ''),
        keyword('TTYPE4', "'FOUR'"), keyword('TFORM4', "'1B'"),
    ]
    return [
        case('names of all kinds; cut at the end of the one with a quote', 'accepted',
             table(['1B'] * 13, 13, names=NAMES), area=13, cut=1936, sought=SOUGHT),
        case('a blank name and an empty one; cut where the blank one begins', 'accepted', blanks, area=13, cut=1691,
             sought=['', ' ', '  ']),
        case('the same; cut one before it: not even the empty name is found', 'accepted', blanks, area=13, cut=1690,
             sought=['', ' ', '  ']),
        case('the empty name is sought and all names are missing', 'accepted', table(['1I', '1J'], 6, rows=2), cut=FAR,
             sought=['', ' ', 'POS']),
        case('the same name three times, the first column last; cut after the second column', 'accepted', backward,
             area=3, cut=975, sought=['SAME', 'same', 'SAM']),
        case('names up to the end of the record', 'accepted', full, area=6, cut=1199,
             sought=['x' * 68, 'x' * 67, 'x' * 69, "'" * 34, "'" * 68, "'" * 33, 'late', 'tail', '', 'x']),
        case('columns beyond TFIELDS hold nonsense', 'accepted', beyond, sought=['POS', 'WT', 'FOUR', '']),
    ]


def flipped(name, at):
    """The name with one byte 32 away: bit 5 of it the other way round."""
    return name[:at] + bytes([name[at] ^ 32]) + name[at + 1:]


def doubled(name):
    """Each quote as two, as a header has it."""
    return name.replace(b"'", b"''")


def ordered(names, order):
    """Columns of one byte with these names, and in which order their TTYPEn stand, the columns counted from 0."""
    return table(['1B'] * len(names), len(names)) + [keyword('TTYPE%d' % (i + 1), quoted(names[i])) for i in order]


def each(numbers):
    """Names of one byte."""
    return [bytes([number]) for number in numbers]


def apart_cases():
    """Bytes that are 32 apart and not the two cases of a letter, each alone as a name.

    The names of the first columns stand last in the header and are cut off. So each byte is sought
    where the name of the other one comes first, or where only that of the other one is lent.
    """
    low, high = each([64, 91, 92, 93, 94, 95]), each([96, 123, 124, 125, 126, 127])
    digits, controls, letters = each(range(48, 58)), each(range(16, 26)), each(range(80, 90))
    large, small = each([0xc0, 0xc1, 0xc4, 0xd7, 0xda, 0xdf]), each([0xe0, 0xe1, 0xe4, 0xf7, 0xfa, 0xff])
    last_first = list(range(6, 13)) + list(range(6))
    return [
        # the name of column 12 is in record 27, that of column 0 in record 28
        case('the bytes next to the letters, each alone; cut behind the upper ones', 'accepted',
             ordered(low + high + ['@AZ['], last_first), area=13, cut=27 * 80 + 15,
             sought=low + high + ['@az[', '@aZ[', '@AZ[', '`AZ[', '@AZ{', '`az{']),
        # the name of column 29 is in record 57, that of column 0 in record 58
        case('digits, and the bytes 32 below and above them; cut behind all but the digits', 'accepted',
             ordered(digits + controls + letters, list(range(10, 30)) + list(range(10))), area=30, cut=57 * 80 + 12,
             sought=digits + controls + letters + each(range(112, 122)) + each(range(144, 154))),
        case('bytes above 127, most of them letters in Latin-1, each alone; cut behind the upper ones', 'accepted',
             ordered(large + small + [b'M\xc4RZ'], last_first), area=13, cut=27 * 80 + 15,
             sought=large + small + [b'm\xc4rz', b'M\xc4RZ', b'm\xe4rz', b'M\xe4RZ']),
    ]


# the 172 bytes that are no letters and have no name of their own in the first two of those cases; a name has 14 of
# them behind a letter, the last one 4
OTHERS = bytes(range(16)) + bytes(range(26, 48)) + bytes(range(58, 64)) + bytes(range(128, 256))
OTHER_NAMES = [b'%c' % (97 + k) + OTHERS[14 * k:14 * k + 14] for k in range(13)]

# the names of columns 0 to 12, in records 33 to 21; that of column 1 starts at byte 2,571
ALIKE = [
    'weight', 'WEIGHT', 'WEIGHTED', "D''Or", "''q''''Q''", "''", '', '  Lead', 'Tail   ', 'A b', 'Time', 'tIME',
    "''''g",
]
ALIKE_SOUGHT = [
    'weight', 'WEIGHT', 'Weight', 'weighted', 'weigh', 'WEIGHTE', b'weight\0', 'eight', "d'oR", "D'Or", "d''or", 'dor',
    "d'o", b'd\x07or', "'Q''q'", "'q'Q'", "''q''''q''", "'", "''", b'\x07', 'G', '', ' ', b'\0', '  lEAD', ' lead',
    'lead', b'\0\0lead', 'tAIL', 'tail ', 'TAIL   ', b'tail\0', 'a B', 'aB', b'a\0b', 'TIME', 'Time', 'tIME', 'time',
    'tim', "''G", "'G", "''''g", "'''g", b"'\x07g",
]

CAPITALS = (b'ABCDEFGHIJKLMNOPQRSTUVWXYZ' * 3)[:68]


def in_case(i):
    """68 letters, of which those are lower case whose place modulo 6 is a bit of i: none for 0, all for 63."""
    return bytes(byte + 32 * (i >> at % 6 & 1) for at, byte in enumerate(CAPITALS))


def either_case_cases():
    """Which other bytes are alike, and which of several columns is found."""
    others = [doubled(name) for name in OTHER_NAMES]
    alike = [flipped(name, 0) for name in OTHER_NAMES]
    near = [flipped(name, at) for name in alike for at in range(1, len(name))]
    small = in_case(63)
    return [
        case('all the other bytes, 14 in a name; each of them 32 away is another name', 'accepted',
             table(['1B'] * 13, 13, names=others), area=13, cut=FAR, sought=alike + near),
        case('names in either case, from the last to the first; cut at the end of that of column 1', 'accepted',
             ordered(ALIKE, range(12, -1, -1)), area=13, cut=2577, sought=ALIKE_SOUGHT),
        # the name of column 63 is in record 72; the last of the 68 letters is P
        case('64 names of 68 letters that differ in case only, the last column first; cut behind that one', 'accepted',
             ordered([in_case(i) for i in range(64)], range(63, -1, -1)), area=64, cut=72 * 80 + 79,
             sought=[CAPITALS, small, in_case(37), in_case(26), CAPITALS[:34] + small[34:], CAPITALS[:67],
                     CAPITALS + b'Q', small + b' ', b'!' + CAPITALS[1:], b'\x81' + small[1:], CAPITALS[:67] + b'0',
                     small[:67] + b'\x90', small[:67] + b'q']),
    ]


# real numbers as TSCALn and TZEROn hold them
REALS = [
    '1', '+1', '-1', '1.', '1.0', '01', '.5', '-.5', '+.1E+1', '0.1', '2.5', '0', '-0', '-0.0', '+0', '.0', '0.',
    '0E22', '-0D-22', '0.0E23', '0.00E-20',
    # the zeros of whole numbers, 32768 in some other forms
    '32768', '-128', '2147483648', '9223372036854775808', '-9223372036854775808', '+0009223372036854775808 / K',
    '   9223372036854775808/', '3.2768E4', '3.2768D+04', '327680000E-4', '.000032768E9', '32768.0000000000', '32768E0',
    '32768/', '32768 /E5', ' ' * 65 + '32768', ' ' * 64 + '32768.', '32768' + ' ' * 64 + '/', '-32768', '32768.5',
    # 15 digits, powers up to 22
    '999999999999999', '-123456789012345', '123456789.012345D5', '.999999999999999', '0.0000000199999999999999E1',
    '1E22', '1D-22', '1.E-22 / small', '1.0E+23', '0.1E-21', '0.0000000000000000000001', '999999999999999E22',
    '999999999999999E-22', '-999999999999999D+22', '000000000000000000.001E0000000000000003', '1E' + '0' * 67 + '1',
    # halfway between two doubles: an odd number of 54 bits times a power of two
    '5E22', '-7E22', '27E21', '29E21', '123E20', '680718877365053E2', '.395814925081869E17', '1795235D14',
]

# other values
NO_REALS = [
    '1E23', '1E-23', '0E23', '.1E-22', '1.0E24', '1234567890123456', '0.1234567890123456', '100000000000000.0',
    '9223372036854775808.', '9223372036854775808E0', '9223372036854775807', '922337203685477580.8E1', '.', '+', '-.',
    '', '/', 'E5', '.E5', '1E', '1E+', '1E /', '1e5', '1d5', '3.3e2', '1F5', '1E5.', '1E5.0', '1E5E5', '1..', '1.2.3',
    '+-1', '--1', '+ 1', '1 2', '1 E5', '1E 5', '1. 5', '1x', '1 x', '1_0', '1,5', "'1'", 'T', 'nan', 'inf', '0x1',
    '1E+-5', '1E' + '9' * 60, '1E-' + '9' * 30, '9' * 70, '1' + '0' * 69, '(1,0)', b'1\t', b'1\0', b'\t1', b'\xb1',
    '1E99999999999999999999', '1E18446744073709551616', '1E-18446744073709551616',
]

EVERY_NUMBER = ['1B', '1I', '1J', '1K', '1E', '1D'] + [kind + letter for kind in 'PQ' for letter in NUMBERS] + ['0PK']


def table_with(forms, *pairs, naxis1=None, theap=None):
    """A table with these records behind the others: a name, its value, a name, its value."""
    if naxis1 is None:
        naxis1 = sum(form_of(text(form))[2] for form in forms)
    return table(forms, naxis1, theap=theap) + [keyword(name, of) for name, of in zip(pairs[::2], pairs[1::2])]


def scaling_cases():
    """TSCALn and TZEROn, and refusal 16."""
    many = [keyword('%s%d' % (root, n + 1), REALS[(2 * n + k) % len(REALS)]) for n in range(64)
            for k, root in enumerate(('TSCAL', 'TZERO'))]
    each_form = [(form, n) for n, form in enumerate(EVERY_NUMBER, 1)]
    both = table_with(EVERY_NUMBER, *[of for _, n in each_form for of in ('TZERO%d' % n, '-%d.5' % n, 'TSCAL%d' % n,
                                                                           '%dE-1' % n)])
    some_of = table_with(EVERY_NUMBER, *[of for form, n in each_form if n % 3
                                           for of in (('TSCAL%d' if n % 3 == 1 else 'TZERO%d') % n, '0.%d' % n)])
    two = ['1I', '1J']
    made = [
        case('the real numbers, two at each of 64 columns', 'accepted', table(['1B'] * 64, 64) + many, area=64),
        case('each type with both', 'accepted', both, area=200),
        case('each type, one or none', 'accepted', some_of, area=200),
        case('a record of the name without a value, before and behind; n above TFIELDS; behind END', 'accepted', padded(
            table_with(two, 'TZERO2', '8') + [keyword('TZERO2', '9', '=='), keyword('TSCAL1', '9', ' =')]
            + [keyword('TSCAL3', 'x'), keyword('TSCAL3', 'x'), keyword('TZERO999', '1'), keyword('TZERO999', '1')]
            + [keyword('TSCAL01', '1')] * 2 + [keyword('TZERO0', '1'), END, keyword('TZERO2', '9')])),
    ]
    made += [case('16: %s with %s' % (form, root), 'refused 16 2', table_with(['1I', form], root + '2', '1'), area=99)
             for form, root in (('1L', 'TZERO'), ('1X', 'TSCAL'), ('1A', 'TZERO'), ('1C', 'TSCAL'), ('1M', 'TZERO'),
                                ('PA', 'TSCAL'), ('0QX', 'TZERO'), ('QM', 'TSCAL'))]
    made += [
        case('16: TSCAL2 twice, the same', 'refused 16 2', table_with(two, 'TSCAL2', '2', 'TSCAL2', '2')),
        case('16: TZERO1 twice, the second unreadable', 'refused 16 1',
             table_with(two, 'TZERO1', '2', 'TZERO1', "'")),
        case('16: TSCAL1 good, TZERO1 twice', 'refused 16 1',
             table_with(two, 'TZERO1', '1', 'TSCAL1', '2', 'TZERO1', '1')),
        case('16: TZERO1 good, TSCAL1 bad', 'refused 16 1', table_with(two, 'TZERO1', '1', 'TSCAL1', '1e5')),
        case('16: TSCAL1 good, TZERO1 bad', 'refused 16 1', table_with(two, 'TZERO1', '1E23', 'TSCAL1', '1E22')),
        case('16: column 64 alone', 'refused 16 64', table_with(['1B'] * 64, 'TZERO64', '1234567890123456'), area=64),
        case('16 of 1 before 16 of 2, by n and not by record', 'refused 16 1',
             table_with(two, 'TSCAL2', '', 'TZERO1', '')),
        case('3 before 16', 'refused 3 12', table_with(two, 'TZERO1', 'x', 'TZERO1', 'x', 'NAXIS', '2')),
        case('6 of THEAP before 16', 'refused 6 8', table_with(two, 'TZERO1', 'x', theap=99)),
        case('5 of TTYPE1 before 16', 'refused 5 10', table_with(two, 'TTYPE1', '1', 'TZERO1', 'x')),
        case('8 of TFORM1 before 16', 'refused 8 1', table_with(['3Z', '1J'], 'TZERO1', 'x', naxis1=6)),
        case('16 of 1 before 4 of TFORM2', 'refused 16 1', without('TFORM2', of=table_with(two, 'TSCAL1', 'x'))),
        case('16 of 1 before 5 of TTYPE2', 'refused 16 1', table_with(two, 'TTYPE2', '1', 'TSCAL1', 'x')),
        case('16 before 9', 'refused 16 2', table_with(two, 'TZERO2', '0E23', naxis1=7)),
        case('16 before 10', 'refused 16 2', table_with(two, 'TZERO2', '.'), area=5),
        case('9 with good numbers', 'refused 9 0', table_with(two, 'TZERO2', '1', naxis1=7)),
    ]
    return made


# integers as TNULLn holds them
NULLS = [
    '0', '-0', '+0', '00', '5', '+5', '-5', '5/', '5 / c', '-5  /', '007', ' ' * 69 + '5', ' ' * 50 + '-' + '7' * 19,
    '5' + ' ' * 68 + '/',
    # 18 and 19 digits
    '9' * 18, '-' + '9' * 18, '1' + '0' * 17, '9' * 19, '-' + '9' * 19, '+' + '9' * 19, '1' + '0' * 18,
    '1234567890123456789', '-1234567890123456789', '42'.zfill(19), '-' + '42'.zfill(19), '0' * 19, '-' + '0' * 19,
    # the lowest and the highest number of each type, and what is next to them
    '255', '256', '-1', '128', '-128', '32767', '32768', '-32768', '-32769', '40000', '65535', '2147483647',
    '2147483648', '-2147483648', '-2147483649', '4294967295', '9223372036854775807', '9223372036854775808',
    '-9223372036854775808', '-9223372036854775809', '+9223372036854775807', '9223372036854775807/',
]

# other values
NO_NULLS = [
    '', '/', ' / 5', '1' + '0' * 19, '9' * 20, '-' + '9' * 20, '5'.zfill(20), '-' + '5'.zfill(20), '0' * 20,
    '18446744073709551616', '18446744073709551611', '5' * 70, "'5'", "''", '1.5', '5.', '.5', '5.0', '1E3', '1D3',
    '5E0', '1e3', '--5', '++5', '+-5', '- 5', '+ 5', '+', '-', '-/5', '5 x', '5x', '5 5', '5-', '1,000', '0x5', 'T',
    '1_0', '(5,5)', '9' * 19 + '.', '9' * 19 + ' 9', ' ' * 50 + '7' * 20, b'\t5', b'5\0', b'5\t', b'\xb5', b'5 \xa0',
]

EVERY_ITEM = [kind + letter for kind in ('1', 'P', 'Q') for letter in 'LXBIJKAEDCM']


def null_cases():
    """TNULLn, and refusal 17."""
    whole = [form for form in EVERY_ITEM if form[-1] in INTEGERS] + ['0PK', '0B', '0QI']
    pairs = [pair for n in range(1, 16) for pair in ('TNULL%d' % n, '-%d' % n)]
    spread = [keyword('TNULL%d' % n, NULLS[n % len(NULLS)]) for n in range(64, 0, -1)]
    two = ['1I', '1J']
    made = [
        case('the integers of TNULLn, at 64 columns, from the last to the first', 'accepted',
             table(['1' + INTEGERS[n // 4 % 4] for n in range(64)], 240) + spread, area=240),
        case('each type that has missing values', 'accepted', table_with(whole, *pairs), area=128),
        case('TNULLn beside the scaling; a record of the name without a value; n above TFIELDS; behind END',
             'accepted', padded(
                 table_with(two, 'TNULL2', '-0', 'TSCAL2', '1', 'TNULL1', '9' * 19, 'TZERO2', '8')
                 + [keyword('TNULL1', '9', '=='), keyword('TNULL2', '9', ' ='), keyword('TNULL01', 'x')]
                 + [keyword('TNULL3', 'x'), keyword('TNULL999', '1')] * 2
                 + [keyword('TNULL0', '1'), END, keyword('TNULL2', '9')])),
    ]
    made += [case('17: %s' % form, 'refused 17 2', table_with(['1I', form], 'TNULL2', '0'), area=99)
             for form in EVERY_ITEM if form[-1] not in INTEGERS]
    made += [case('17: %r' % of, 'refused 17 2', table_with(two, 'TNULL2', of)) for of in (
        '0' * 19 + '5', '9' * 20, "'5'", '1.5', '1E3', '', '5 x', '- 5')]
    return made + null_order_cases(two)


def null_order_cases(two):
    """TNULLn given twice, and where 17 comes among the other refusals."""
    return [
        case('17, not 3: TNULL2 twice, the same', 'refused 17 2', table_with(two, 'TNULL2', '2', 'TNULL2', '2')),
        case('17: TNULL1 twice, the second unreadable', 'refused 17 1', table_with(two, 'TNULL1', '2', 'TNULL1', "'")),
        case('17: E with a good factor', 'refused 17 2', table_with(['1I', '1E'], 'TSCAL2', '2', 'TNULL2', '0')),
        case('17: column 64 alone', 'refused 17 64', table_with(['1B'] * 64, 'TNULL64', '0' * 20), area=64),
        case('17 of 1 before 17 of 2, by n and not by record', 'refused 17 1',
             table_with(two, 'TNULL2', '', 'TNULL1', '')),
        case('16 before 17 of the same n', 'refused 16 1', table_with(two, 'TNULL1', 'x', 'TSCAL1', 'x')),
        case('16 before 17 of the same n, a letter that has neither', 'refused 16 1',
             table_with(['1A', '1J'], 'TNULL1', '1', 'TZERO1', '1'), area=5),
        case('17 of 1 before 16 of 2', 'refused 17 1', table_with(two, 'TZERO2', 'x', 'TNULL1', '1.')),
        case('16 of 1 before 17 of 2', 'refused 16 1', table_with(two, 'TNULL2', 'x', 'TZERO1', '1E23')),
        case('3 before 17', 'refused 3 12', table_with(two, 'TNULL1', 'x', 'TNULL1', 'x', 'NAXIS', '2')),
        case('6 of THEAP before 17', 'refused 6 8', table_with(two, 'TNULL1', 'x', theap=99)),
        case('5 of TTYPE1 before 17', 'refused 5 10', table_with(two, 'TTYPE1', '1', 'TNULL1', 'x')),
        case('8 of TFORM1 before 17', 'refused 8 1', table_with(['3Z', '1J'], 'TNULL1', 'x', naxis1=6)),
        case('17 of 1 before 4 of TFORM2', 'refused 17 1', without('TFORM2', of=table_with(two, 'TNULL1', 'x'))),
        case('17 of 1 before 5 of TTYPE2', 'refused 17 1', table_with(two, 'TTYPE2', '1', 'TNULL1', 'x')),
        case('17 of 1 before 8 of TFORM2', 'refused 17 1', table_with(['1I', '3Z'], 'TNULL1', 'x', naxis1=6)),
        case('17 before 9', 'refused 17 2', table_with(two, 'TNULL2', '5.', naxis1=7)),
        case('17 before 10', 'refused 17 2', table_with(two, 'TNULL2', '.'), area=5),
        case('9 with a good TNULLn', 'refused 9 0', table_with(two, 'TNULL2', '1', naxis1=7)),
        case('10 with a good TNULLn', 'refused 10 0', table_with(two, 'TNULL2', '1'), area=5),
    ]


def named():
    """All of them."""
    return (example_cases() + whole_cases() + missing_cases() + unread_cases() + wrong_cases() + heap_cases()
            + sum_cases() + order_cases() + form_cases() + empty_field_cases() + name_cases() + apart_cases()
            + either_case_cases() + counted_form_cases() + scaling_cases() + null_cases())


# ---- random cases ----

FILL = [
    '', '', 'COMMENT a remark', "HISTORY = 'x", 'TFORM01 = 8', 'NAXIS3  = 4', "EXTNAME = 'x'", 'NAXIS   =4',
    'TFORM1  8', "TUNIT1  = 'm'", 'TTYPE1   = 8', 'PCOUNT  == 7',
]
COUNTS = ['', '', '', '0', '1', '1', '2', '3', '7', '8', '9', '12', '16', '007', '0' * 30 + '2']
ONE_OR_NONE = ['', '', '', '1', '1', '1', '001', '0' * 30 + '1', '0', '0', '00', '0' * 30]
ABOVE_ONE = ['2', '2', '3', '7', '8', '9', '16', '007', '0' * 30 + '2', '65536', '888888', '8388607', '8388608']
RESTS = ['', '', '', '', '(20)', ' and more', 'Z', "''", '1E', '/', ' P']
LETTERS = each(range(65, 91)) + each(range(97, 123))
NAME_PARTS = [
    'A', 'A', 'A', 'a', 'a', 'B', 'b', 'Z', 'z', '@', '`', '[', '{', '_', b'\x7f', '1', 'Q', "''", ' ', '/', b'\xc9',
    b'\xe9', b'\0',
]
BAD_TEXTS = [
    '', ' ', '3Z', ' 1E', '1e', '8', '-1E', '+1E', '1 E', '1P', '1Q(3)', '1PZ', 'PP', 'QQ', 'Pp', '1.0E', "''E", '1P E',
]
UNREAD = ['', '/', 'x', '8 x', '8.0', "'", "'a", "'a'b", "'''", '9' * 19, '-', '+ 8', 'T', '8 8', "''a''"]
SIZE_VALUES = [
    '-1', '-6', '0', '-0', '1', '7', '64', '65', '999', '1000', '1048576', '1048577', '16777216', '16777217',
    '2147483647', '2147483648', '4294967296', '4294967298', '9' * 18, '-' + '9' * 18, '0' * 18,
]


def some(rng, parts, most):
    return b''.join(text(rng.choice(parts)) for _ in range(rng.randrange(most + 1)))


def after(rng):
    return text(rng.choice(['', '', '', ' ', ' / a comment', '/c', "  /it's", b' /\xff\0']))


def integer_value(rng, number):
    digits = b'%d' % abs(number)
    sign = b'-' if number < 0 else text(rng.choice(['', '', '', '+', '-' if number == 0 else '']))
    zeros = b'0' * rng.choice([0, 0, 0, 1, 18 - len(digits)])
    return b' ' * rng.choice([0, 0, 1, 10, 19 - len(zeros + digits)]) + sign + zeros + digits + after(rng)


def string_value(rng, of):
    inside = text(of) + b' ' * rng.choice([0, 0, 1, max(0, 8 - len(of))])
    made = b' ' * rng.choice([0, 0, 0, 1, 9]) + quoted(inside) + after(rng)
    return made if len(made) <= 70 else quoted(of)


def random_form(rng):
    letter = rng.choice('LXBIJKAEDCMPQ')
    if letter in 'PQ':
        return rng.choice(ONE_OR_NONE) + letter + rng.choice('LXBIJKAEDCM') + rng.choice(RESTS)
    digits = rng.choice(COUNTS + ['%d' % rng.randrange(40)])
    if letter == 'X' and rng.randrange(4) == 0:
        digits = '%d' % rng.randrange(2000)
    return digits + letter + rng.choice(RESTS)


def nearly(rng, name):
    """The name in the other case, or one byte of it 32 away: a letter, a byte that is none, or any.

    For bytes, `swapcase` and `isalpha` know the letters A to Z and a to z alone.
    """
    every_place = range(len(name))
    letters = [at for at in every_place if name[at:at + 1].isalpha()]
    rest = [at for at in every_place if at not in letters]
    places = rng.choice([[], letters, rest, every_place])
    if not places:
        return name.swapcase()
    at = rng.choice(places)
    if places is not every_place:
        return flipped(name, at)
    return name[:at] + bytes([(name[at] + rng.choice([32, -32])) % 256]) + name[at + 1:]


def random_name(rng, others):
    """The string of a TTYPEn, or None for no TTYPEn; often nearly one of the others."""
    given = [name for name in others if name]
    if given and rng.randrange(4) == 0:
        return doubled(nearly(rng, single(rng.choice(given))))
    return rng.choice([
        None, b'', some(rng, [' '], 4), some(rng, ['A', 'a', 'B', 'b'], 2), some(rng, NAME_PARTS, 5),
        some(rng, NAME_PARTS, 12), some(rng, LETTERS, 8), doubled(some(rng, each(range(256)), 6)),
    ])


def real_text(rng):
    """A text by the grammar of a real number, with or without the limits; most are within them."""
    digits = '%d' % rng.randrange(10 ** rng.choice([1, 1, 2, 3, 5, 8, 14, 15, 15, 16, 17]))
    digits = '0' * rng.choice([0, 0, 0, 1, 2, 12]) + digits + '0' * rng.choice([0, 0, 0, 1, 3])
    if rng.randrange(2):
        at = rng.randrange(len(digits) + 1)
        digits = digits[:at] + '.' + digits[at:]
    made = rng.choice(['', '', '', '+', '-', '-']) + digits
    if rng.randrange(3):
        behind = len(digits.partition('.')[2])
        power = rng.choice([0, 1, rng.randrange(-22, 23), rng.randrange(-9, 10), 22, -22, 23, -23])
        exponent = power + behind * rng.randrange(2)
        made += rng.choice('EED') + rng.choice(['-'] if exponent < 0 else ['', '+']) + '0' * rng.choice([0, 0, 1, 3])
        made += '%d' % abs(exponent)
    return made


def nearly_real(rng, of):
    """The text with one byte put in, left out or changed."""
    of, at = text(of), rng.randrange(len(of) + 1)
    new = bytes([rng.choice(b'+-.EDed0123456789 /\'xT\t\0' if rng.randrange(9) else range(256))])
    return of[:at] + rng.choice([new, b'']) + of[at + rng.randrange(2):]


def real_value(rng):
    """A good one, in its place in the record."""
    made = None
    while made is None:
        made = b' ' * rng.choice([0, 0, 1, 8]) + text(rng.choice([real_text(rng), rng.choice(REALS)])) + after(rng)
        if len(made) > 70 or real_of(made) is None:
            made = None
    return made


def random_scaling(rng, forms):
    """TSCALn and TZEROn, most at columns that may have them, and now and then one that is not looked at."""
    made = []
    for n, form in enumerate(forms, 1):
        if form_of(text(form))[0][-1] in NUMBERS and rng.randrange(3) == 0:
            roots = rng.choice([['TSCAL'], ['TZERO'], ['TSCAL', 'TZERO']])
            made += [keyword('%s%d' % (root, n), real_value(rng)) for root in roots]
    if rng.randrange(12) == 0:
        beyond = '%s%d' % (rng.choice(['TSCAL', 'TZERO']), len(forms) + rng.choice([1, 2, 50, 900]))
        made += [keyword(beyond, rng.choice(UNREAD + ['1.5']))] * rng.choice([1, 1, 2])
    return made


def null_text(rng):
    """A text of TNULLn by its grammar, some with too many digits: near an end of a type's range, or any number."""
    near = rng.choice([0, 2 ** 7, 2 ** 8, 2 ** 15, 2 ** 16, 2 ** 31, 2 ** 32, 2 ** 63, 2 ** 64, 10 ** 18, 10 ** 19])
    number = rng.choice([near + rng.randrange(-2, 3), rng.randrange(10 ** rng.choice([1, 3, 5, 10, 18, 19, 20]))])
    digits = '%d' % abs(number)
    zeros = '0' * max(0, rng.choice([0, 0, 0, 0, 1, 3, 18 - len(digits), 19 - len(digits), 20 - len(digits)]))
    return rng.choice(['', '', '+', '-', '-']) + zeros + digits


def null_value(rng):
    """A good one, in its place in the record."""
    made = None
    while made is None or null_of(made) is None:
        made = b' ' * rng.choice([0, 0, 1, 8]) + text(rng.choice([null_text(rng), rng.choice(NULLS)])) + after(rng)
        if len(made) > 70:
            made = None
    return made


def random_nulls(rng, forms):
    """TNULLn at columns that may have it, and now and then one that is not looked at."""
    made = [keyword('TNULL%d' % n, null_value(rng)) for n, form in enumerate(forms, 1)
            if form_of(text(form))[0][-1] in INTEGERS and rng.randrange(2)]
    if rng.randrange(12) == 0:
        beyond = 'TNULL%d' % (len(forms) + rng.choice([1, 2, 50, 900]))
        made += [keyword(beyond, rng.choice(UNREAD + ['5']))] * rng.choice([1, 1, 2])
    return made


def random_records(rng):
    """The records of a sound table without END, and the bytes that its area must have."""
    forms = [random_form(rng) for _ in range(rng.choice([0, 1, 2, 2, 3, 3] + list(range(1, 13))))]
    names = []
    for _ in forms:
        names.append(random_name(rng, names))
    naxis1 = sum(form_of(text(form))[2] for form in forms)
    most = AREA * 9 // 10 // naxis1 if naxis1 else 16777216
    rows = rng.choice([0, 1, 2, rng.randrange(most + 1), most])
    pcount = rng.choice([0, 0, 1, 5, rng.randrange(1000)])
    main = naxis1 * rows
    numbers = [8, 2, naxis1, rows, pcount, 1, len(forms)]
    made = [keyword('XTENSION', string_value(rng, 'BINTABLE'))]
    made += [keyword(name, integer_value(rng, number)) for name, number in zip(TABLE_NAMES[1:8], numbers)]
    columns = []
    if rng.randrange(2):
        theap = main + rng.choice([0, pcount, rng.randrange(pcount + 1)])
        columns.append(keyword('THEAP', integer_value(rng, theap)))
    for n, (form, name) in enumerate(zip(forms, names), 1):
        columns.append(keyword('TFORM%d' % n, string_value(rng, form)))
        if name is not None:
            columns.append(keyword('TTYPE%d' % n, string_value(rng, name)))
    for _ in range(rng.choice([0, 0, 1, 2])):
        beyond = '%s%d' % (rng.choice(['TFORM', 'TTYPE']), len(forms) + rng.choice([1, 2, 50, 900]))
        if not any(has(card, beyond) for card in columns):
            columns.append(keyword(beyond, rng.choice(UNREAD + ['7', "'1I'", "'A'"])))
    if rng.randrange(3) == 0:
        columns += random_scaling(rng, forms)
    if rng.randrange(3) == 0:
        columns += random_nulls(rng, forms)
    order = rng.randrange(4)
    if order == 1:
        rng.shuffle(columns)
    made += columns
    if order == 2:
        rng.shuffle(made)
    room = max(0, 35 - len(made) if len(made) < 35 and rng.randrange(20) else 71 - len(made))
    for _ in range(rng.randrange(min(room, 14) + 1)):
        made.insert(rng.randrange(len(made) + 1), record(rng.choice(FILL)))
    return made, main + pcount


def used_places(records):
    return [k for k, card in enumerate(records) if name_of(card) in USED + NUMBER_NAMES]


def put(records, name, value):
    """Another value at a name, if it has a record."""
    for k, card in enumerate(records):
        if has(card, name):
            records[k] = keyword(name, value)


def number_at(records, name):
    """The integer at a name, or 0."""
    for card in records:
        if has(card, name):
            kind, *numbers = value_of(card, 0).split()
            if kind == 'integer':
                return int(numbers[0])
    return 0


def fault_missing(rng, records):
    places = used_places(records)
    if places:
        records[rng.choice(places)] = BLANK


def fault_unread(rng, records):
    places = used_places(records)
    if places:
        k = rng.choice(places)
        records[k] = keyword(name_of(records[k]), rng.choice(UNREAD + ['8', "'8'", "'1I'", '0']))


def fault_size(rng, records):
    put(records, rng.choice(['NAXIS1', 'NAXIS2', 'PCOUNT', 'TFIELDS', 'THEAP']), rng.choice(SIZE_VALUES))


def fault_limit(rng, records):
    """A size at its limit or one above it."""
    name = rng.choice(list(SIZES))
    put(records, name, '%d' % (SIZES[name][1] + rng.choice([0, 1])))


def fault_only(rng, records):
    name = rng.choice(['XTENSION', 'BITPIX', 'NAXIS', 'GCOUNT'])
    words = ['BINTABL', 'bintable', ' BINTABLE', 'BINTABLE ', 'BINTABLES', "BINTABLE''", 'IMAGE', '']
    numbers = ['0', '1', '2', '3', '8', '-8', '16', '+8', '0008', '4294967304', '-2', '-1']
    put(records, name, quoted(rng.choice(words)) if name == 'XTENSION' else rng.choice(numbers))


def fault_near(rng, records):
    """A size one off."""
    name = rng.choice(['NAXIS1', 'NAXIS1', 'NAXIS2', 'PCOUNT', 'TFIELDS'])
    put(records, name, '%d' % (number_at(records, name) + rng.choice([1, -1])))


def fault_heap(rng, records):
    """THEAP at its ends or beyond them, put in if it is missing."""
    main, pcount = number_at(records, 'NAXIS1') * number_at(records, 'NAXIS2'), number_at(records, 'PCOUNT')
    value = '%d' % (main + rng.choice([0, pcount]) + rng.choice([-1, 0, 1]))
    if any(has(card, 'THEAP') for card in records):
        put(records, 'THEAP', value)
    else:
        records.insert(rng.randrange(len(records) + 1), keyword('THEAP', value))


def above_one(rng):
    """A form of P or Q with a count above 1."""
    return text(rng.choice(ABOVE_ONE) + rng.choice('PQ') + rng.choice('LXBIJKAEDCM') + rng.choice(RESTS))


def fault_form(rng, records):
    large = '%d' % rng.choice([8388608, 8388609, 9999999, 10000000, 2 ** 32, 2 ** 32 + 1, 2 ** 64 + 1, 10 ** 40])
    odd = bytes([rng.randrange(256)]).replace(b"'", b"''")
    form = rng.choice([
        text(rng.choice(BAD_TEXTS)), text(large + rng.choice('LXBIJKAEDCM')), text(large + rng.choice(['PE', 'QX'])),
        b'1' + odd, odd + b'E', b'1P' + odd, b'0Q' + odd + b'E', text(random_form(rng)), above_one(rng),
        above_one(rng),
    ])
    places = [k for k in used_places(records) if name_of(records[k]).startswith(b'TFORM')]
    if places:
        k = rng.choice(places)
        records[k] = keyword(name_of(records[k]), quoted(form))


def fault_twice(rng, records):
    places = used_places(records)
    if places:
        again = keyword(name_of(records[rng.choice(places)]), rng.choice(UNREAD + ['8', "'1I'"]))
        records.insert(rng.randrange(len(records) + 1), again)


def fault_byte(rng, records):
    if records:
        k = rng.randrange(len(records))
        at = rng.choice([rng.randrange(8), rng.randrange(8, 12), rng.randrange(10, 30), rng.randrange(80)])
        new = bytes([rng.choice([rng.randrange(256), rng.choice(b" '/=+-0189EPQX")])])
        records[k] = records[k][:at] + new + records[k][at + 1:]


def fault_swap(rng, records):
    """The values of two records change places."""
    places = used_places(records)
    if len(places) > 1:
        one, other = rng.sample(places, 2)
        first, second = records[one], records[other]
        records[one], records[other] = first[:10] + second[10:], second[:10] + first[10:]


def fault_number(rng, records, names, value):
    """A record of one of these names at any column, often a second one; or another value at one that is there."""
    root = rng.choice(names).rstrip(b'0123456789')
    name = root + b'%d' % (1 + rng.randrange(min(max(1, number_at(records, 'TFIELDS')), 64)))
    places = [k for k, card in enumerate(records) if name_of(card) in names]
    if places and rng.randrange(2):
        k = rng.choice(places)
        records[k] = keyword(name_of(records[k]), value)
    elif places and rng.randrange(2):
        records.insert(rng.randrange(len(records) + 1), rng.choice([records[rng.choice(places)], keyword(name, value)]))
    else:
        records.insert(rng.randrange(len(records) + 1), keyword(name, value))


def fault_scaling(rng, records):
    """TSCALn or TZEROn, most of them bad."""
    value = rng.choice([nearly_real(rng, real_text(rng)), rng.choice(NO_REALS), real_text(rng), real_value(rng)])[:70]
    fault_number(rng, records, TSCAL + TZERO, value)


def fault_null(rng, records):
    """TNULLn, most of them bad."""
    value = rng.choice([nearly_real(rng, null_text(rng)), rng.choice(NO_NULLS), null_text(rng), null_value(rng)])[:70]
    fault_number(rng, records, TNULL, value)


def fault_end(rng, records):
    """END early, or a record that is nearly END."""
    new = rng.choice([END, record('END.'), record('end'), b'END'.ljust(79) + b'\0'])
    records.insert(rng.randrange(len(records) + 1), new)


FAULTS = [
    fault_missing, fault_missing, fault_unread, fault_unread, fault_size, fault_limit, fault_limit, fault_only,
    fault_near, fault_near, fault_heap, fault_form, fault_form, fault_form, fault_twice, fault_byte, fault_byte,
    fault_swap, fault_end, fault_scaling, fault_scaling, fault_scaling,
    fault_null, fault_null, fault_null,
]


def random_cut(rng, header, layout):
    ends = [sum(column.stretch) for column in layout.columns if column.stretch]
    near = [max(0, end + rng.choice([-1, 0, 0, 1])) for end in ends]
    return rng.choice(near * 2 + [0, len(header), FAR, rng.randrange(len(header) + 2)])


def random_sought(rng, header, layout):
    made = [b'']
    for column in layout.columns:
        if column.stretch and rng.randrange(3):
            name = bytes_at(header, column.stretch)
            one = single(name)
            made.append(rng.choice([
                one, one, one, name, name + b' ', name[:-1], one + b'A', single(one), one.lstrip(b' '),
            ]))
            if one:
                made += [nearly(rng, one), nearly(rng, nearly(rng, one))]
    made += [some(rng, NAME_PARTS, 3) for _ in range(rng.randrange(3))]
    rng.shuffle(made)
    return made


def random_case(rng):
    records, area = random_records(rng)
    area += rng.choice([0, 0, 0, 1, rng.randrange(2000)])
    faults = rng.choice([0, 0, 0, 1, 1, 2])
    for _ in range(faults):
        rng.choice(FAULTS)(rng, records)
    header = ended(records)
    if faults and rng.randrange(10) == 0:
        area = max(0, area - rng.choice([1, 1, 2, 2000]))
    if faults and rng.randrange(12) == 0:
        header = rng.choice([
            header[:-1], header + b' ', header[:-80], header + b' ' * BLOCK, padded(records), padded(records),
            header.replace(END, record(b'END\0')), header[:BLOCK // 2], b'',
        ])
    if rng.randrange(250) == 0:
        header = header.ljust(57600 + rng.choice([0, BLOCK]))
    layout = read(header, area)[1]
    return Case('random', None, header, area, random_cut(rng, header, layout), random_sought(rng, header, layout))


def random_cases(seed, room):
    """Random cases as long as there is room for one of three blocks; a long one that has no room is left out."""
    rng = random.Random(seed)
    made = []
    while room >= 3 * BLOCK:
        one = random_case(rng)
        if len(packed(one)) <= room:
            made.append(one)
            room -= len(packed(one))
    return made


# ---- the two files ----


def packed(one):
    assert one.area <= AREA and len(one.sought) < 256 and all(len(name) < 256 for name in one.sought)
    made = struct.pack('>I', len(one.header)) + one.header + struct.pack('>II', one.area, one.cut)
    return made + bytes([len(one.sought)]) + b''.join(bytes([len(name)]) + name for name in one.sought)


def expected(cases):
    lines = []
    for number, one in enumerate(cases):
        lines.append('case %d' % number)
        lines += said_of(one)
    return ''.join(line + '\n' for line in lines)


def tell(cases, size):
    """The counts, to standard error."""
    outcomes = [read(one.header, one.area)[0].split() for one in cases]
    counts = collections.Counter('accepted' if words[0] == 'accepted' else int(words[1]) for words in outcomes)
    numbers = [*range(1, 11), 16, 17]
    told = ['accepted %d' % counts['accepted']] + ['%d: %d' % (number, counts[number]) for number in numbers]
    print('%d cases, %d bytes; %s' % (len(cases), size, ', '.join(told)), file=sys.stderr)


def write(cases, folder, most):
    made = b''.join(packed(one) for one in cases)
    assert len(made) < most
    os.makedirs(os.path.join(folder, 'data'), exist_ok=True)
    with open(os.path.join(folder, 'data', 'cases.bin'), 'wb') as file:
        file.write(made)
    with open(os.path.join(folder, 'stdout'), 'wb') as file:
        file.write(expected(cases).encode('ascii'))
    tell(cases, len(made))


# ---- the reader's own check: worked out by hand ----

WORKED = {
    'the example; cut exactly at the end of POS': '''
accepted
table 2 columns 2 rows 6 bytes 0 pcount 12 theap
column 0 I 1 at 0 bytes 2 stretch 651 3
column 1 J 1 at 2 bytes 4 stretch 811 2
name 0 full 80 79 83
name 0 cut 80 79 83
name 1 full 87 84
name 1 cut
name 2 full
name 2 cut
find 0 full 0
find 0 cut 0
find 1 full 1
find 1 cut none
find 2 to 2 none
find 3 to 3 0
find 4 to 8 none
find 9 full 1
find 9 cut none
find 10 to 14 none
''',
    'cut one byte before the end of POS': '''
accepted
table 2 columns 2 rows 6 bytes 0 pcount 12 theap
column 0 I 1 at 0 bytes 2 stretch 651 3
column 1 J 1 at 2 bytes 4 stretch 811 2
name 0 full 80 79 83
name 0 cut
name 1 full 87 84
name 1 cut
name 2 full
name 2 cut
find 0 full 0
find 0 cut none
find 1 full 1
find 1 cut none
find 2 to 2 none
find 3 full 0
find 3 cut none
find 4 to 8 none
find 9 full 1
find 9 cut none
find 10 to 14 none
''',
    '1: 2,881 bytes': '''
refused 1 0
table 0 columns 0 rows 0 bytes 0 pcount 0 theap
name 0 full
name 0 cut
find 0 to 2 none
''',
    '2: 36 blank records': '''
refused 2 0
table 0 columns 0 rows 0 bytes 0 pcount 0 theap
name 0 full
name 0 cut
find 0 to 2 none
''',
    '3: NAXIS in records 2 and 9': '''
refused 3 9
table 0 columns 0 rows 0 bytes 0 pcount 0 theap
name 0 full
name 0 cut
find 0 to 2 none
''',
    '4: TFIELDS 2, no TFORM2': '''
refused 4 2
table 0 columns 0 rows 0 bytes 0 pcount 0 theap
name 0 full
name 0 cut
find 0 to 2 none
''',
    "5: BITPIX is '8'": '''
refused 5 1
table 0 columns 0 rows 0 bytes 0 pcount 0 theap
name 0 full
name 0 cut
find 0 to 2 none
''',
    '6: GCOUNT 2': '''
refused 6 6
table 0 columns 0 rows 0 bytes 0 pcount 0 theap
name 0 full
name 0 cut
find 0 to 2 none
''',
    '7: TFIELDS 65': '''
refused 7 7
table 0 columns 0 rows 0 bytes 0 pcount 0 theap
name 0 full
name 0 cut
find 0 to 2 none
''',
    '8: a letter that is no form': '''
refused 8 2
table 0 columns 0 rows 0 bytes 0 pcount 0 theap
name 0 full
name 0 cut
find 0 to 2 none
''',
    '9: 1I, NAXIS1 3': '''
refused 9 0
table 0 columns 0 rows 0 bytes 0 pcount 0 theap
name 0 full
name 0 cut
find 0 to 2 none
''',
    '10: 11 bytes for 12': '''
refused 10 0
table 0 columns 0 rows 0 bytes 0 pcount 0 theap
name 0 full
name 0 cut
find 0 to 2 none
''',
    'THEAP at the main size and PCOUNT': '''
accepted
table 2 columns 2 rows 6 bytes 5 pcount 17 theap
column 0 I 1 at 0 bytes 2 stretch 731 3
column 1 J 1 at 2 bytes 4 stretch 891 2
name 0 full 80 79 83
name 0 cut 80 79 83
name 1 full 87 84
name 1 cut
name 2 full
name 2 cut
find 0 full 0
find 0 cut 0
find 1 full 1
find 1 cut none
find 2 to 2 none
''',
    'TFIELDS 0, NAXIS1 0, rows and a heap, a name that is no column': '''
accepted
table 0 columns 7 rows 0 bytes 9 pcount 4 theap
name 0 full
name 0 cut
find 0 to 2 none
''',
    'NAXIS2 16,777,216 of 0 bytes': '''
accepted
table 1 columns 16777216 rows 0 bytes 0 pcount 0 theap
column 0 E 0 at 0 bytes 0 stretch 731 3
name 0 full 80 79 83
name 0 cut 80 79 83
name 1 full
name 1 cut
find 0 full 0
find 0 cut 0
find 1 to 2 none
''',
    'records from the last to the first, others between': '''
accepted
table 2 columns 2 rows 6 bytes 5 pcount 14 theap
column 0 I 1 at 0 bytes 2 stretch 731 3
column 1 J 1 at 2 bytes 4 stretch 411 2
name 0 full 80 79 83
name 0 cut
name 1 full 87 84
name 1 cut 87 84
name 2 full
name 2 cut
find 0 full 0
find 0 cut none
find 1 full 1
find 1 cut 1
find 2 to 2 none
''',
    'every letter without digits and with 0': '''
accepted
table 26 columns 1 rows 78 bytes 0 pcount 78 theap
column 0 L 1 at 0 bytes 1 missing
column 1 X 1 at 1 bytes 1 missing
column 2 B 1 at 2 bytes 1 missing
column 3 I 1 at 3 bytes 2 missing
column 4 J 1 at 5 bytes 4 missing
column 5 K 1 at 9 bytes 8 missing
column 6 A 1 at 17 bytes 1 missing
column 7 E 1 at 18 bytes 4 missing
column 8 D 1 at 22 bytes 8 missing
column 9 C 1 at 30 bytes 8 missing
column 10 M 1 at 38 bytes 16 missing
column 11 PE 1 at 54 bytes 8 missing
column 12 QD 1 at 62 bytes 16 missing
column 13 L 0 at 78 bytes 0 missing
column 14 X 0 at 78 bytes 0 missing
column 15 B 0 at 78 bytes 0 missing
column 16 I 0 at 78 bytes 0 missing
column 17 J 0 at 78 bytes 0 missing
column 18 K 0 at 78 bytes 0 missing
column 19 A 0 at 78 bytes 0 missing
column 20 E 0 at 78 bytes 0 missing
column 21 D 0 at 78 bytes 0 missing
column 22 C 0 at 78 bytes 0 missing
column 23 M 0 at 78 bytes 0 missing
column 24 PE 0 at 78 bytes 0 missing
column 25 QD 0 at 78 bytes 0 missing
name 0 to 26 empty
find 0 to 2 none
''',
    'what comes after a form; bits in bytes': '''
accepted
table 24 columns 1 rows 94 bytes 0 pcount 94 theap
column 0 E 1 at 0 bytes 4 missing
column 1 E 1 at 4 bytes 4 missing
column 2 J 1 at 8 bytes 4 missing
column 3 I 2 at 12 bytes 4 missing
column 4 E 1 at 16 bytes 4 missing
column 5 A 3 at 20 bytes 3 missing
column 6 X 8 at 23 bytes 1 missing
column 7 B 1 at 24 bytes 1 missing
column 8 PE 1 at 25 bytes 8 missing
column 9 QD 1 at 33 bytes 16 missing
column 10 PX 1 at 49 bytes 8 missing
column 11 PM 0 at 57 bytes 0 missing
column 12 QC 0 at 57 bytes 0 missing
column 13 PA 1 at 57 bytes 8 missing
column 14 X 0 at 65 bytes 0 missing
column 15 X 1 at 65 bytes 1 missing
column 16 X 7 at 66 bytes 1 missing
column 17 X 8 at 67 bytes 1 missing
column 18 X 9 at 68 bytes 2 missing
column 19 X 15 at 70 bytes 2 missing
column 20 X 16 at 72 bytes 2 missing
column 21 X 17 at 74 bytes 3 missing
column 22 X 64 at 77 bytes 8 missing
column 23 X 65 at 85 bytes 9 missing
name 0 to 24 empty
find 0 to 2 none
''',
    '`0PE` alone: rows of no bytes, a heap': '''
accepted
table 1 columns 7 rows 0 bytes 5 pcount 0 theap
column 0 PE 0 at 0 bytes 0 stretch 731 3
name 0 full 80 79 83
name 0 cut 80 79 83
name 1 full
name 1 cut
find 0 full 0
find 0 cut 0
find 1 to 2 none
''',
    '`0QD` alone, no rows': '''
accepted
table 1 columns 0 rows 0 bytes 0 pcount 0 theap
column 0 QD 0 at 0 bytes 0 stretch 731 2
name 0 full 87 84
name 0 cut
name 1 full
name 1 cut
find 0 to 0 none
find 1 full 0
find 1 cut none
find 2 to 2 none
''',
    'empty descriptors first, side by side between others, and last; cut at the end of POS': '''
accepted
table 6 columns 2 rows 6 bytes 0 pcount 12 theap
column 0 PE 0 at 0 bytes 0 stretch 1131 2
column 1 I 1 at 0 bytes 2 stretch 1211 3
column 2 QD 0 at 2 bytes 0 stretch 1291 0
column 3 PX 0 at 2 bytes 0 missing
column 4 J 1 at 2 bytes 4 stretch 1371 2
column 5 PE 0 at 6 bytes 0 stretch 1451 3
name 0 full 78 79
name 0 cut 78 79
name 1 full 80 79 83
name 1 cut 80 79 83
name 2 to 3 empty
name 4 full 87 84
name 4 cut
name 5 full 65 70 84
name 5 cut
name 6 to 6 empty
find 0 full 0
find 0 cut 0
find 1 full 1
find 1 cut 1
find 2 full 4
find 2 cut none
find 3 full 5
find 3 cut none
find 4 full 2
find 4 cut none
find 5 to 6 none
''',
    'one descriptor and none in many digits': '''
accepted
table 10 columns 1 rows 64 bytes 0 pcount 64 theap
column 0 PE 1 at 0 bytes 8 missing
column 1 PE 1 at 8 bytes 8 missing
column 2 PE 1 at 16 bytes 8 missing
column 3 PE 1 at 24 bytes 8 missing
column 4 PE 0 at 32 bytes 0 missing
column 5 QD 0 at 32 bytes 0 missing
column 6 QD 1 at 32 bytes 16 missing
column 7 QX 0 at 48 bytes 0 missing
column 8 QX 1 at 48 bytes 16 missing
column 9 PA 0 at 64 bytes 0 missing
name 0 to 10 empty
find 0 to 2 none
''',
    '8: `2PE` alone, with the bytes of two': '''
refused 8 1
table 0 columns 0 rows 0 bytes 0 pcount 0 theap
name 0 full
name 0 cut
find 0 to 2 none
''',
    'names of all kinds; cut at the end of the one with a quote': '''
accepted
table 13 columns 1 rows 13 bytes 0 pcount 13 theap
column 0 B 1 at 0 bytes 1 missing
column 1 B 1 at 1 bytes 1 stretch 1691 0
column 2 B 1 at 2 bytes 1 stretch 1771 0
column 3 B 1 at 3 bytes 1 stretch 1851 1
column 4 B 1 at 4 bytes 1 stretch 1931 5
column 5 B 1 at 5 bytes 1 stretch 2011 2
column 6 B 1 at 6 bytes 1 stretch 2091 3
column 7 B 1 at 7 bytes 1 stretch 2171 3
column 8 B 1 at 8 bytes 1 stretch 2251 3
column 9 B 1 at 9 bytes 1 stretch 2331 6
column 10 B 1 at 10 bytes 1 stretch 2411 5
column 11 B 1 at 11 bytes 1 stretch 2491 10
column 12 B 1 at 12 bytes 1 stretch 2571 2
name 0 to 2 empty
name 3 full 65
name 3 cut 65
name 4 full 105 116 39 39 115
name 4 cut 105 116 39 39 115
name 5 full 39 39
name 5 cut
name 6 full 97 47 98
name 6 cut
name 7 full 68 85 80
name 7 cut
name 8 full 68 85 80
name 8 cut
name 9 full 32 32 108 101 97 100
name 9 cut
name 10 full 127 128 255 0 9
name 10 cut
name 11 full 97 98 39 39 39 39 99 100 39 39
name 11 cut
name 12 full 65 66
name 12 cut
name 13 full
name 13 cut
find 0 full 1
find 0 cut 1
find 1 to 1 none
find 2 full 3
find 2 cut 3
find 3 to 4 none
find 5 to 5 3
find 6 full 4
find 6 cut 4
find 7 to 9 none
find 10 full 5
find 10 cut none
find 11 to 12 none
find 13 full 6
find 13 cut none
find 14 to 14 none
find 15 full 7
find 15 cut none
find 16 to 16 none
find 17 full 7
find 17 cut none
find 18 to 19 none
find 20 full 9
find 20 cut none
find 21 to 22 none
find 23 full 10
find 23 cut none
find 24 to 25 none
find 26 full 11
find 26 cut none
find 27 to 28 none
find 29 full 12
find 29 cut none
find 30 to 31 none
''',
    'a blank name and an empty one; cut where the blank one begins': '''
accepted
table 13 columns 1 rows 13 bytes 0 pcount 13 theap
column 0 B 1 at 0 bytes 1 missing
column 1 B 1 at 1 bytes 1 stretch 1691 0
column 2 B 1 at 2 bytes 1 missing
column 3 B 1 at 3 bytes 1 stretch 1771 0
column 4 B 1 at 4 bytes 1 missing
column 5 B 1 at 5 bytes 1 missing
column 6 B 1 at 6 bytes 1 missing
column 7 B 1 at 7 bytes 1 missing
column 8 B 1 at 8 bytes 1 missing
column 9 B 1 at 9 bytes 1 missing
column 10 B 1 at 10 bytes 1 missing
column 11 B 1 at 11 bytes 1 missing
column 12 B 1 at 12 bytes 1 missing
name 0 to 13 empty
find 0 full 1
find 0 cut 1
find 1 to 2 none
''',
    'the same; cut one before it: not even the empty name is found': '''
accepted
table 13 columns 1 rows 13 bytes 0 pcount 13 theap
column 0 B 1 at 0 bytes 1 missing
column 1 B 1 at 1 bytes 1 stretch 1691 0
column 2 B 1 at 2 bytes 1 missing
column 3 B 1 at 3 bytes 1 stretch 1771 0
column 4 B 1 at 4 bytes 1 missing
column 5 B 1 at 5 bytes 1 missing
column 6 B 1 at 6 bytes 1 missing
column 7 B 1 at 7 bytes 1 missing
column 8 B 1 at 8 bytes 1 missing
column 9 B 1 at 9 bytes 1 missing
column 10 B 1 at 10 bytes 1 missing
column 11 B 1 at 11 bytes 1 missing
column 12 B 1 at 12 bytes 1 missing
name 0 to 13 empty
find 0 full 1
find 0 cut none
find 1 to 2 none
''',
    'the same name three times, the first column last; cut after the second column': '''
accepted
table 3 columns 1 rows 3 bytes 0 pcount 3 theap
column 0 B 1 at 0 bytes 1 stretch 1051 4
column 1 B 1 at 1 bytes 1 stretch 971 4
column 2 B 1 at 2 bytes 1 stretch 891 4
name 0 full 83 65 77 69
name 0 cut
name 1 full 83 65 77 69
name 1 cut 83 65 77 69
name 2 full 83 65 77 69
name 2 cut 83 65 77 69
name 3 full
name 3 cut
find 0 full 0
find 0 cut 1
find 1 full 0
find 1 cut 1
find 2 to 2 none
''',
    'columns beyond TFIELDS hold nonsense': '''
accepted
table 2 columns 2 rows 6 bytes 0 pcount 12 theap
column 0 I 1 at 0 bytes 2 stretch 651 3
column 1 J 1 at 2 bytes 4 stretch 811 2
name 0 full 80 79 83
name 0 cut 80 79 83
name 1 full 87 84
name 1 cut
name 2 full
name 2 cut
find 0 full 0
find 0 cut 0
find 1 full 1
find 1 cut none
find 2 to 3 none
''',
    'names in either case, from the last to the first; cut at the end of that of column 1': '''
accepted
table 13 columns 1 rows 13 bytes 0 pcount 13 theap
column 0 B 1 at 0 bytes 1 stretch 2651 6
column 1 B 1 at 1 bytes 1 stretch 2571 6
column 2 B 1 at 2 bytes 1 stretch 2491 8
column 3 B 1 at 3 bytes 1 stretch 2411 5
column 4 B 1 at 4 bytes 1 stretch 2331 10
column 5 B 1 at 5 bytes 1 stretch 2251 2
column 6 B 1 at 6 bytes 1 stretch 2171 0
column 7 B 1 at 7 bytes 1 stretch 2091 6
column 8 B 1 at 8 bytes 1 stretch 2011 4
column 9 B 1 at 9 bytes 1 stretch 1931 3
column 10 B 1 at 10 bytes 1 stretch 1851 4
column 11 B 1 at 11 bytes 1 stretch 1771 4
column 12 B 1 at 12 bytes 1 stretch 1691 5
name 0 full 119 101 105 103 104 116
name 0 cut
name 1 full 87 69 73 71 72 84
name 1 cut 87 69 73 71 72 84
name 2 full 87 69 73 71 72 84 69 68
name 2 cut 87 69 73 71 72 84 69 68
name 3 full 68 39 39 79 114
name 3 cut 68 39 39 79 114
name 4 full 39 39 113 39 39 39 39 81 39 39
name 4 cut 39 39 113 39 39 39 39 81 39 39
name 5 full 39 39
name 5 cut 39 39
name 6 to 6 empty
name 7 full 32 32 76 101 97 100
name 7 cut 32 32 76 101 97 100
name 8 full 84 97 105 108
name 8 cut 84 97 105 108
name 9 full 65 32 98
name 9 cut 65 32 98
name 10 full 84 105 109 101
name 10 cut 84 105 109 101
name 11 full 116 73 77 69
name 11 cut 116 73 77 69
name 12 full 39 39 39 39 103
name 12 cut 39 39 39 39 103
name 13 to 13 empty
find 0 full 0
find 0 cut 1
find 1 full 0
find 1 cut 1
find 2 full 0
find 2 cut 1
find 3 to 3 2
find 4 to 7 none
find 8 to 9 3
find 10 to 13 none
find 14 to 14 4
find 15 to 16 none
find 17 to 17 5
find 18 to 20 none
find 21 to 21 6
find 22 to 23 none
find 24 to 24 7
find 25 to 27 none
find 28 to 28 8
find 29 to 31 none
find 32 to 32 9
find 33 to 34 none
find 35 to 38 10
find 39 to 39 none
find 40 to 40 12
find 41 to 44 none
''',
}

# the bits of 1 are 3ff0000000000000 in hex, those of 8 are 4020000000000000
WORKED['a record of the name without a value, before and behind; n above TFIELDS; behind END'] = '''
accepted
table 2 columns 1 rows 6 bytes 0 pcount 6 theap
column 0 I 1 at 0 bytes 2 missing
column 1 J 1 at 2 bytes 4 missing factor 4607182418800017408 zero 4620693217682128896
name 0 to 2 empty
find 0 to 2 none
'''

WORKED['TNULLn beside the scaling; a record of the name without a value; n above TFIELDS; behind END'] = '''
accepted
table 2 columns 1 rows 6 bytes 0 pcount 6 theap
column 0 I 1 at 0 bytes 2 missing null out of range
column 1 J 1 at 2 bytes 4 missing factor 4607182418800017408 zero 4620693217682128896 null 0
name 0 to 2 empty
find 0 to 2 none
'''

# the columns of some more cases, whose names are long or many
WORKED_COLUMNS = {
    'names up to the end of the record': {
        0: 'column 0 B 1 at 0 bytes 1 stretch 1131 68',
        1: 'column 1 B 1 at 1 bytes 1 stretch 1211 68',
        2: 'column 2 B 1 at 2 bytes 1 stretch 1294 4',
        3: 'column 3 B 1 at 3 bytes 1 stretch 1371 4',
        4: 'column 4 B 1 at 4 bytes 1 stretch 1519 0',
        5: 'column 5 B 1 at 5 bytes 1 stretch 1598 1',
    },
    'the longest header, 57,600 bytes, 64 names all over it': {
        0: 'column 0 B 1 at 0 bytes 1 stretch 6571 2',
        32: 'column 32 B 1 at 32 bytes 1 stretch 32171 3',
        63: 'column 63 B 1 at 63 bytes 1 stretch 56971 3',
    },
    'the bytes next to the letters, each alone; cut behind the upper ones': {
        0: 'column 0 B 1 at 0 bytes 1 stretch 2251 1',
        6: 'column 6 B 1 at 6 bytes 1 stretch 1691 1',
        12: 'column 12 B 1 at 12 bytes 1 stretch 2171 4',
    },
    'digits, and the bytes 32 below and above them; cut behind all but the digits': {
        0: 'column 0 B 1 at 0 bytes 1 stretch 4651 1',
        10: 'column 10 B 1 at 10 bytes 1 stretch 3051 1',
        29: 'column 29 B 1 at 29 bytes 1 stretch 4571 1',
    },
    'all the other bytes, 14 in a name; each of them 32 away is another name': {
        0: 'column 0 B 1 at 0 bytes 1 stretch 1691 15',
        2: 'column 2 B 1 at 2 bytes 1 stretch 1851 16',
        12: 'column 12 B 1 at 12 bytes 1 stretch 2651 5',
    },
    '64 names of 68 letters that differ in case only, the last column first; cut behind that one': {
        0: 'column 0 B 1 at 0 bytes 1 stretch 10811 68',
        63: 'column 63 B 1 at 63 bytes 1 stretch 5771 68',
    },
}
WORKED_FINDS = {
    'names up to the end of the record': '0 0, none none, none none, 1 none, none none, none none, 2 none, 3 none, '
                                         '4 none, 5 none',
    'the longest header, 57,600 bytes, 64 names all over it':
        '0 0, 63 none, 32 32, 33 none, none none, none none, 5 5, 63 none, none none, none none',
    'the bytes next to the letters, each alone; cut behind the upper ones':
        '0 none, 1 none, 2 none, 3 none, 4 none, 5 none, 6 6, 7 7, 8 8, 9 9, 10 10, 11 11, 12 12, 12 12, 12 12, '
        'none none, none none, none none',
    'digits, and the bytes 32 below and above them; cut behind all but the digits':
        '0 none, 1 none, 2 none, 3 none, 4 none, 5 none, 6 none, 7 none, 8 none, 9 none, '
        '10 10, 11 11, 12 12, 13 13, 14 14, 15 15, 16 16, 17 17, 18 18, 19 19, '
        '20 20, 21 21, 22 22, 23 23, 24 24, 25 25, 26 26, 27 27, 28 28, 29 29, '
        '20 20, 21 21, 22 22, 23 23, 24 24, 25 25, 26 26, 27 27, 28 28, 29 29' + ', none none' * 10,
    'bytes above 127, most of them letters in Latin-1, each alone; cut behind the upper ones':
        '0 none, 1 none, 2 none, 3 none, 4 none, 5 none, 6 6, 7 7, 8 8, 9 9, 10 10, 11 11, 12 12, 12 12, '
        'none none, none none',
    'all the other bytes, 14 in a name; each of them 32 away is another name':
        '0 0, 1 1, 2 2, 3 3, 4 4, 5 5, 6 6, 7 7, 8 8, 9 9, 10 10, 11 11, 12 12' + ', none none' * 172,
    '64 names of 68 letters that differ in case only, the last column first; cut behind that one':
        '0 63, 0 63, 0 63, 0 63, 0 63' + ', none none' * 8,
}


def spelled(worked):
    """The lines of a text above: `find 2 to 4 none` is six lines, and so are `find 2 to 4 0`, `name 2 to 4 empty`."""
    lines = []
    for line in worked.strip().split('\n'):
        found = re.fullmatch('(find|name) ([0-9]+) to ([0-9]+) (none|empty|[0-9]+)', line)
        if not found:
            lines.append(line)
            continue
        kind, first, last, what = found.groups()
        for i in range(int(first), int(last) + 1):
            for word in ('full', 'cut'):
                lines.append('%s %d %s%s' % (kind, i, word, ' ' + what if kind == 'find' else ''))
    return lines


def is_nearest(exact, number):
    """Whether no double is nearer to a fraction, and of two that are as near it is the even one."""
    off = abs(Fraction(number) - exact)
    for other in (math.nextafter(number, math.inf), math.nextafter(number, -math.inf)):
        other_off = abs(Fraction(other) - exact)
        if other_off < off or other_off == off and double_bits(number) % 2:
            return False
    return True


def check_reals():
    """The real numbers above are read as the doubles nearest to the fractions, and the others are not read."""
    for written in REALS:
        number, exact = real_of(text(written)), Fraction(written.partition('/')[0].strip().replace('D', 'E'))
        assert is_nearest(exact, number) and double_bits(number) != double_bits(-0.0), written
    for written in NO_REALS:
        assert real_of(text(written)) is None, written


def check_nulls():
    """The integers above are read as Python's `int` reads them, and the others are not read."""
    for written in NULLS:
        assert null_of(text(written)) == int(written.partition('/')[0]), written
    for written in NO_NULLS:
        assert null_of(text(written)) is None, written


def self_check():
    """Every case by name comes out as its line says, and the ones above are printed as worked out."""
    check_reals()
    check_nulls()
    cases = {one.why: one for one in named()}
    assert len(cases) == len(named())
    for why, one in cases.items():
        assert read(one.header, one.area)[0] == one.outcome, why
    for why, worked in WORKED.items():
        assert said_of(cases[why]) == spelled(worked), why
    for why, columns in WORKED_COLUMNS.items():
        lines = said_of(cases[why])
        for i, line in columns.items():
            assert lines[2 + i] == line, (why, i)
    for why, finds in WORKED_FINDS.items():
        worked = ['find %d %s %s' % (j, word, found) for j, pair in enumerate(finds.split(', '))
                  for word, found in zip(('full', 'cut'), pair.split())]
        assert [line for line in said_of(cases[why]) if line.startswith('find ')] == worked, why
    assert TABLE_NAMES == [name.decode('ascii') for name in NINE]


def main():
    if len(sys.argv) == 3:
        write(random_cases(int(sys.argv[1]), LIMIT - 1), sys.argv[2], LIMIT)
        return
    here = os.path.dirname(os.path.abspath(__file__))
    write(named(), os.path.join(here, '..', 'crates', 'layout_cases'), MOST_NAMED)


if __name__ == '__main__':
    self_check()
    main()
