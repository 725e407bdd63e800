#!/usr/bin/env python3
"""Writes the cases of the program `header_cases` and what it must print of them.

From the repository's root:

    python3 tests/header_cases.py               crates/header_cases/data/cases.bin and crates/header_cases/stdout
    python3 tests/header_cases.py SEED FOLDER   FOLDER/data/cases.bin and FOLDER/stdout: random headers alone

The reader below is not a copy of the Rattle code: it was written from the request's statement of a
header, which docs/FORMAT.md, sections 2 to 6, puts in our words. It looks for each name from the
start and matches each value by one expression. The real numbers of TSCALn and TZEROn and the integers of
TNULLn are read for the other tests alone: the program prints them as it does the values of any name.
"""
import os
import random
import re
import struct
import sys

LIMIT = 524288
RECORD = 80
BLOCK = 2880

# ---- what docs/FORMAT.md says of a header ----

NINE = [b'XTENSION', b'BITPIX', b'NAXIS', b'NAXIS1', b'NAXIS2', b'PCOUNT', b'GCOUNT', b'TFIELDS', b'THEAP']

TFORM = [b'TFORM%d' % n for n in range(1, 1000)]
TTYPE = [b'TTYPE%d' % n for n in range(1, 1000)]
TSCAL = [b'TSCAL%d' % n for n in range(1, 1000)]
TZERO = [b'TZERO%d' % n for n in range(1, 1000)]
TNULL = [b'TNULL%d' % n for n in range(1, 1000)]
# the names that must not stand twice
USED = NINE + TFORM + TTYPE
SLOTS = NINE + TFORM[:64] + TTYPE[:64] + TSCAL[:64] + TZERO[:64] + TNULL[:64]

# A value field, bytes 11 to 80: spaces, the value, then spaces only or a comment after any spaces.
INTEGER = re.compile(rb' *([+-]?[0-9]{1,18}) *(/.*)?', re.DOTALL)
NULL = re.compile(rb' *([+-]?[0-9]{1,19}) *(/.*)?', re.DOTALL)
STRING = re.compile(rb" *'((?:[^']|'')*)' *(/.*)?", re.DOTALL)
# sign, digits before the point, the point, those behind it, exponent
REAL = re.compile(rb' *([+-]?)([0-9]*)(\.?)([0-9]*)(?:[ED]([+-]?[0-9]+))? *(?:/.*)?', re.DOTALL)
MOST_DIGITS = 15
MOST_POWER = 22


def records_of(header):
    """The whole records; bytes after the last one are no record."""
    count = len(header) // RECORD
    return [header[k * RECORD:(k + 1) * RECORD] for k in range(count)]


def end_of(header):
    """The number of the END record, or None."""
    for k, card in enumerate(records_of(header)):
        if card == b'END' + b' ' * 77:
            return k
    return None


def header_length(file):
    """Through the block with END; everything, if there is none or the block is cut short."""
    end = end_of(file)
    if end is None:
        return len(file)
    block = end * RECORD // BLOCK
    return min((block + 1) * BLOCK, len(file))


def name_of(card):
    """The name of a record, or None if it holds no value."""
    if card[8:10] != b'= ':
        return None
    return card[:8].rstrip(b' ')


def field_at(header, k):
    """The value field of record k, which holds a value."""
    return header[k * RECORD + 10:(k + 1) * RECORD]


def value_of(header, k):
    """How the value of record k is printed."""
    field = field_at(header, k)
    found = INTEGER.fullmatch(field)
    if found:
        return 'integer %d' % int(found.group(1))
    found = STRING.fullmatch(field)
    if found:
        return 'string %d %d' % (k * RECORD + 10 + found.start(1), len(found.group(1).rstrip(b' ')))
    return 'invalid'


def null_of(field):
    """The integer of TNULLn in a value field, or None."""
    found = NULL.fullmatch(field)
    return int(found.group(1)) if found else None


def real_of(field):
    """The real number of a value field, or None. Python's `float` gives the nearest double, halves to even."""
    found = REAL.fullmatch(field)
    if not found:
        return None
    sign, before, point, behind, exponent = found.groups()
    digits = before + behind
    if not digits:
        return None
    power = int(exponent or b'0') - len(behind)
    if not point and exponent is None and int(digits) == 2 ** 63:
        pass
    elif len(digits.lstrip(b'0')) > MOST_DIGITS or not -MOST_POWER <= power <= MOST_POWER:
        return None
    # 0 has no minus
    return float(b'%s%sE%d' % (sign, digits, power)) or 0.0


def said_of(header):
    """The lines for one header, after its length."""
    if len(header) == 0 or len(header) > 57600 or len(header) % BLOCK != 0:
        return ['refused 1 0']
    end = end_of(header)
    if end is None:
        return ['refused 2 0']
    names = [name_of(card) for card in records_of(header)[:end]]
    places = {used: [k for k, name in enumerate(names) if name == used] for used in set(USED + SLOTS)}
    seconds = [places[used][1] for used in USED if len(places[used]) > 1]
    lines = ['refused 3 %d' % min(seconds)] if seconds else ['passed']
    for slot, used in enumerate(SLOTS):
        found = places[used]
        if found:
            again = ' again %d' % found[1] if len(found) > 1 else ''
            lines.append('slot %d record %d %s%s' % (slot, found[0], value_of(header, found[0]), again))
    return lines


# ---- making headers ----


def text(of):
    return of if isinstance(of, bytes) else of.encode('ascii')


def record(of):
    made = text(of).ljust(RECORD)
    assert len(made) == RECORD, of
    return made


def keyword(name, value, mark='= '):
    return record(text(name).ljust(8) + text(mark) + text(value))


END = record('END')


def padded(records):
    """The records as bytes, with blank records up to a whole block."""
    made = b''.join(records)
    return made + b' ' * (-len(made) % BLOCK)


def ended(records):
    return padded(records + [END])


def valued(values):
    """A header whose names hold these values, one each. The names are of all kinds in turn."""
    names = NINE + [name for pair in zip(TFORM, TTYPE) for name in pair]
    return ended([keyword(name, value) for name, value in zip(names, values)])


GOOD = [
    keyword('XTENSION', "'BINTABLE'           / a table"),
    keyword('BITPIX', '                   8 / bits'),
    keyword('NAXIS', '                   2'),
    keyword('NAXIS1', '                   6 / bytes in a row'),
    keyword('NAXIS2', '                   2'),
    keyword('PCOUNT', '                   0'),
    keyword('GCOUNT', '                   1'),
    keyword('TFIELDS', '                   2'),
    keyword('TTYPE1', "'POS     '           / a name"),
    keyword('TFORM1', "'1I      '"),
    keyword('TTYPE2', "'WT      '"),
    keyword('TFORM2', "'1J      '"),
]

# ---- the cases by name ----


def long_records():
    """719 records: some comments, then every third used name, each with another value."""
    values = ["'%d' /%d" % (k, k) if k % 2 else '%d' % (k * 1000003 - 7) for k in range(719)]
    records = [keyword(name, value) for name, value in zip(USED[::3], values)]
    return [record('COMMENT %d' % k) for k in range(719 - len(records))] + records


def length_cases():
    good = ended(GOOD)
    late = padded(GOOD + [record('')] * 24 + [END])
    full = long_records()
    return [
        b'',
        good,
        good + b' ',
        good[:2879],
        good[:79],
        END,
        late,
        late[:2960],
        late[:2959],
        ended(GOOD + [record('')] * 23),
        good + b' ' * BLOCK,
        good + good,
        padded([END]),
        b' ' * BLOCK,
        b'\0' * BLOCK,
        b''.join(full + [END]),
        b''.join(full + [END]) + b' ',
        ended(full + [record('')]),
    ]


def end_with_another_byte():
    """END with another byte at each of the 77 places after it."""
    others = [b'\0', b'\t', b'x', b'=', b'/', b'\n', b'\xa0', b"'", b'\x21', b'\x1f', b'\xff']
    return [END[:at] + others[at % len(others)] + END[at + 1:] for at in range(3, 80)]


NOT_END = [
    'end', 'End', 'eND', 'ENd', 'ENDX', 'END=', 'END/', 'END.', 'ENDEND', 'EN', 'E', 'EN D', 'XND', 'EXD', 'ENX',
    ' END', '  END', 'XEND', '\tEND', '=END', 'END     = ', 'END     = 5', 'END      = 5', 'END     =', "'END'",
    ' ' * 40 + 'END', ' ' * 77 + 'END', b'END'.ljust(80, b'\0'), b'END'.ljust(80, b'\t'), b'END'.ljust(80, b'\xff'),
    b'END\t', b'END\0', b'\xc5\xce\xc4', b'\0END', '',
]


def end_cases():
    places = end_with_another_byte()
    near = [record(of) for of in NOT_END]
    two = keyword('NAXIS', '2')
    after = [two, END, two, END, keyword('THEAP', '9')]
    across = b' ' * 40 + END + b' ' * 40
    return [
        padded(places + after),
        padded(near + after),
        padded(places),
        padded(near),
        padded(GOOD + [record('end')]),
        padded(GOOD + [record(b'END\0')]),
        padded(GOOD + [record(b'END' + b' ' * 76 + b'x')]),
        padded(GOOD + [across]),
        padded(GOOD + [END] + GOOD),
        padded(GOOD[:3] + [END] + GOOD[3:] + [END]),
        padded([END] + GOOD + GOOD),
        padded(GOOD + [END, keyword('THEAP', "'never seen'"), END]),
    ]


# bytes 9 and 10 of a record that holds no value
NO_VALUE = [b'=x', b'==', b' =', b'  ', b'x ', b'=8', b'=\t', b'=\0', b"='", b'=\xa0']

# names that are not used, which may come twice
UNUSED = [
    'EXTNAME', 'TFORM01', 'TFORM0', 'TFORM1000', 'TFORM', 'TTYPE', 'NAXIS3', 'naxis', '', ' NAXIS', 'COMMENT',
    'TUNIT1', 'NAXIS 1', 'THEAPX', 'XTENSIO',
]


def repeat_cases():
    blank = record('')
    two, three, unread = keyword('NAXIS', '2'), keyword('NAXIS', '3'), keyword('NAXIS', '2 x')
    form, name = keyword('TFORM1', "'1J'"), keyword('TTYPE1', "'A'")
    last_form, last_name = keyword('TFORM999', "'1J'"), keyword('TTYPE999', "'A'")
    heap = keyword('THEAP', '1')
    factor, zero, other = keyword('TSCAL1', '0.5'), keyword('TZERO1', '32768'), keyword('TZERO64', "'x'")
    null, last_null = keyword('TNULL1', '-99'), keyword('TNULL64', '9' * 19)
    plain = [keyword('NAXIS', '9', mark) for mark in NO_VALUE]
    repeats = [
        GOOD[:9] + [two] + GOOD[9:],
        [two, three],
        [two, two],
        [form, name, name, form],
        [form, name, form, name],
        [name, form, form, name],
        [heap, two, form, name, name, form, two, heap],
        [two, blank, three, blank, two],
        [two] + plain,
        plain + [two],
        plain[:3] + [two] + plain[3:] + [three],
        [plain[0], two, plain[1], two, two],
        [two, unread],
        [unread, two],
        [unread, unread],
        [keyword('TFIELDS', '0'), form, form],
        [keyword('TFIELDS', '1'), last_form, keyword('TFORM998', '8'), last_form],
        [name, form, last_name, last_form, name],
        [last_name, keyword('TTYPE99', '8'), keyword('TTYPE9', '8'), keyword('TTYPE999', '')],
        [keyword(at, '8') for at in ('TFORM64', 'TTYPE1', 'TFORM65', 'TTYPE64')],
        [keyword(at, '8') for at in ('TTYPE64', 'TTYPE65', 'TTYPE65', 'TTYPE64')],
        [keyword('XTENSION', "'A'"), keyword('XTENSION', '8')],
        [heap, keyword('THEA', '1'), keyword('THEAPX', '1'), heap],
        [two] + [blank] * 33 + [three],
        [two] + [blank] * 34 + [three],
        [blank] * 35 + [two, three],
        [keyword(other, value) for value in '12' for other in UNUSED],
        # TSCALn, TZEROn and TNULLn may stand twice
        [factor, zero, factor],
        [zero, zero, zero, factor],
        [zero, two, zero, factor, three, factor],
        [factor, keyword('TSCAL1', '2', '=='), zero, keyword('TZERO1', '2', ' ='), zero],
        [keyword('TSCAL1', '0.5', '=='), factor, factor],
        [other, keyword('TZERO64', ''), keyword('TZERO65', '1'), keyword('TZERO65', '1'), name, other],
        [keyword('TSCAL999', '1')] * 2 + [form, factor, form],
        [null, zero, null],
        [last_null, keyword('TNULL1', ''), null, keyword('TNULL64', '9' * 18), last_null, null],
        [keyword('TNULL1', '8', '=='), null, keyword('TNULL1', '8', ' ='), null, two, two],
        [keyword('TNULL65', '1')] * 2 + [keyword('TNULL999', '1')] * 2 + [name, null, name],
    ]
    return [ended(records) for records in repeats] + [
        padded([two, END, three, END]),
        padded([two, three, record('END.')]),
        padded([two, three, END])[:2800],
    ]


NAMES = [
    'TFORM01', 'TFORM0', 'TFORM00', 'TFORM001', 'TFORM1000', 'TFORM999', 'TFORM10', 'TFORM100', 'TFORM1', 'TFORM9',
    'TFORM99', 'TFORM101', 'TFORM010', 'TFORM998', 'TFORM909', 'TFORM990', 'TFORM11', 'TFORM90', 'TFORM19',
    'TFORM199', 'TFORM991', 'TTYPE1', 'TTYPE999', 'TTYPE', 'TFORM', 'TTYPE0', 'TTYPE01', 'TTYPE1000', 'TTYPE2',
    'TTYPE10', 'TTYPE99', 'TTYPE100', 'TFORM 1', 'TFORM1 1', 'TFORM+1', 'TFORM-1', 'TFORM1.', 'TFORM/', 'TFORM:',
    'TFORM1/', 'TFORM1:', 'TFORM/1', 'TFORM:1', 'TFORM12/', 'TFORM12:', 'TFORM1/2', 'TFORM1:2', 'TFORM1A', 'TFORMA',
    'TFORM1a', 'TTYPE/', 'TTYPE:', 'TTYPE1/', 'TTYPE1:', 'TTYPE 1', 'TTYPEA1', 'tform3', 'TFORm3', 'ttype3',
    'TTYPe3', 'Tform3', 'TFORN3', 'TTYPF3', 'TSCAL2', 'TSCAL64', 'TSCAL65', 'TZERO2', 'TZERO64', 'TZERO65', 'TSCAL02',
    'TSCAL0', 'TSCAL', 'TZERO', 'TZERO0', 'TZERO2/', 'TSCAL:', 'TSCALE2', 'TZER2', 'TZEROO2', 'tscal3', 'tzero3',
    'TSCAl3', 'TZERo3', 'TSCAM3', 'TZERP3', 'TSCAK3', 'TZERN3', 'TSCAL2A', 'TZERO 2', 'TDISP3', 'TUCAL3', 'TNULL3',
    'TNULL1', 'TNULL64', 'TNULL65', 'TNULL999', 'TNULL02', 'TNULL0', 'TNULL', 'TNULL2/', 'TNULL:', 'TNUL2', 'TNULLL2',
    'TNULl3', 'tnull3', 'TNULM3', 'TNULK3', 'TNVLL3', 'TNULL2A', 'TNULL 2',
    'TFOR3', 'TTYP3', 'TFORMS3', 'XTFORM3', ' TFORM3', 'TUNIT3', 'TFIELDS',
    'TFIELD', 'TFIELDS1', 'NAXIS', 'NAXIS 1', ' NAXIS', 'naxis', 'Naxis', 'NAXIs', 'NAXIS3', 'NAXIS0', 'NAXIS1',
    'NAXIS2', 'NAXIS01', 'NAXIS11', 'NAXIS12', 'NAXIS22', 'NAXI', 'NAXISA', 'NAXIT', 'N', '', 'THEAP', 'THEAPX',
    'THEA', 'THEAP1', 'theap', 'XTENSIO', 'XTENSION', 'XTENSIOM', 'xtension', ' XTENSIO', 'BITPIX', 'BITPIX1',
    'BITPI', 'bitpix', 'PCOUNT', 'PCOUNT1', 'GCOUNT', 'GCOUN', 'QCOUNT', 'TFORM9999',
    b'NAXIS\t', b'NAXIS\0', b'\0NAXIS', b'\tNAXIS', b'NAXIS1\t', b'NAXIS1\0', b'NAXIS\0\0\0', b'TFORM5\t',
    b'TFORM5\0', b'TFORM\t5', b'TFORM\xb5', b'TFORM5\xff', b'\xd4FORM5', b'TFORM5\xa0', b'TFORM\n', b'TTYPE5\0',
    b'TTYPE\x005', b'THEAP\0\0\0', b'NAXIS\x1f', b'NAXIS!',
]

# the `=` at other places
MARKS = [
    'NAXIS   8', 'NAXIS1  =8', 'NAXIS2 = 8', 'PCOUNT   = 8', 'GCOUNT  == 8', 'TFIELDS  =8', 'THEAP   =',
    'XTENSION =  8', 'BITPIX=  8', 'TFORM1=  8', 'TFORM22= 8', 'TFORM333= 8', 'TFORM4   = 8', 'TTYPE4  =  8',
    ' NAXIS  = 8', 'COMMENT NAXIS   = 8', 'TTYPE5  =', 'TTYPE6  = ',
]


def name_cases():
    near = [keyword(name, '%d' % k) for k, name in enumerate(NAMES)]
    return [ended(near), ended([record(of) for of in MARKS])]


NUMBERS = [
    '0', '-0', '+0', '8', '+8', '-8', '1', '-1', '-2', '65536', '08', '-08', '+008',
    # 18 and 19 digits
    '9' * 18, '-' + '9' * 18, '+' + '9' * 18, '1' + '0' * 17, '9' * 19, '-' + '9' * 19, '1' + '0' * 18, '9' * 17,
    '9' * 20, '9223372036854775807', '-9223372036854775808', '123456789012345678', '-123456789012345678',
    '1234567890123456789', '0' * 17 + '8', '0' * 18 + '8', '-' + '0' * 17 + '8', '-' + '0' * 18 + '8', '0' * 18,
    '0' * 19, '-' + '0' * 18, '9' * 18 + '/', '9' * 19 + '/', '9' * 18 + ' 9', '9' * 18 + 'x', '8' * 70, '0' * 70,
    # what comes after
    '8/c', '8 /c', '8  /', '8/', '8//', "8 / it's", "8/'c'", '8 x', '8x', '8 8', '8 -', '8-', '8+', '8 x /c', '8 x/',
    # signs
    '--8', '++8', '+-8', '-+8', '+ 8', '- 8', '+', '-', '- /c', '-/8', '+/',
    # no integers
    '8.', '8.0', '.8', '8,', '8E0', '8e0', '0x8', '8_0', '(8,8)', 'T', 'F', 'T /c', ':', '8:', '8;', '*', ',8', '#8',
    'eight', '"8"', "8'", '', '/', '/ 8', '/8', ' /c',
    # late in the field, and at its end
    ' 8', ' ' * 19 + '8', ' ' * 19 + '-8 /c', ' ' * 69 + '8', ' ' * 68 + '-8', ' ' * 69 + '-', ' ' * 69 + '/',
    ' ' * 68 + '8/', ' ' * 68 + '8x', ' ' * 52 + '7' * 18, ' ' * 51 + '7' * 19, ' ' * 51 + '-' + '7' * 18,
    ' ' * 50 + '-' + '7' * 19, ' ' * 69 + 'x', '8' + ' ' * 68 + '8', '8' + ' ' * 68 + '/', '8' + ' ' * 68 + 'x',
    '8 /' + 'c' * 67,
    # bytes that look like a space or a digit
    b'\t8', b' \t8', b'8\t', b'8 \t', b'8\t/c', b'\x008', b'8\0', b'8 \0', b'8 \0/', b'8 /\0', b'8\n', b'8 /\n\xff',
    b'\xa08', b'8\xa0', b'\xb8', b'8' + b' ' * 68 + b'\t', b'8' + b' ' * 68 + b'\0', b'\r8', b'8\r',
]

STRINGS = [
    "''", "' '", "'   '", "'" + ' ' * 68 + "'", "'a'", "'a  '", "'  a'", "' a '", "  'a'", ' ' * 19 + "'a'", "'a b'",
    "'a  b  '", "'BINTABLE'", "'BINTABLE  ' /x", "'8'", "'-8'",
    # doubled quotes
    "'''", "''''", "'''''", "''''''", "'''''''", "''''''''", "''' '", "''' '''", "'' ''", "'''a'", "'a'''", "'a''",
    "'a''b'", "'a''''b'", "'a'''b'", "'it''s'", "'it''s", "'it's'", "'a  '''", "'a''  '", "'a '' '", "''  '",
    "'  '''",
    # what comes after
    "'a'b", "'a' b", "'a'8", "'a' 'b'", "'a''b'c", "'a' /c", "'a'/c", "'a'  /", "'a'/", "'a' /'", "'a'/'b'",
    "'a' /c '", "'a /c'", "'a/c'", "'/'", "'a' x /c", "'a'-", "'a'.",
    # no strings
    "'a", "'", "'   ", "' /c", "'a /c", "'a''  /c", "a'", "a'b'", "-'a'", "/'a'", '"a"',
    # quotes at the field's end
    "'" + 'x' * 68 + "'", "'" + 'x' * 69, "'" + 'x' * 67 + "''", "'" + 'x' * 66 + "'''", "'" + 'x' * 65 + "''''",
    "'" + "''" * 34 + "'", "'" + "''" * 33 + "'", "'" * 70, "'" * 69, "'" * 68, "'" + ' ' * 67 + "''",
    "'" + 'x' * 66 + "''" + 'x', "'" + 'x' * 67 + "'/", "'" + 'x' * 67 + "'x", "'" + 'x' * 67 + "' ",
    "'" + 'x' * 66 + "' /", "'" + 'x' * 66 + "' x", "'x" + ' ' * 67 + "'", "'" + ' ' * 67 + "x'", ' ' * 69 + "'",
    ' ' * 68 + "''", ' ' * 67 + "'''", ' ' * 67 + "'a'", ' ' * 66 + "''''", ' ' * 68 + "'a", ' ' * 67 + "' '",
    ' ' * 66 + "'a' ",
    # bytes that look like a space or a quote, and others outside ASCII
    b"'\xe9\xff\x80'", b"'\xa0'", b"'a\xa0'", b"'a\t'", b"'a\0'", b"'\0'", b"'a \0 '", b"'a\nb'", b"'a'\t", b"'a'\0",
    b"'a' \t/c", b"'a' \0", b"\t'a'", b"\0'a'", b"'a'\xff", b"'a' /\xff\0\n", b"'a\0\0\0", b"'\t'", b"'\x1f'",
    b"'!'", b'`a`', b"'\xa7a'",
]

# values that the next record would go on with, if a record had more than 80 bytes
RUNS = [
    keyword('NAXIS', ' ' * 52 + '1' * 18),
    record('9'),
    keyword('NAXIS1', ' ' * 69 + '-'),
    record('9'),
    keyword('NAXIS2', "'" + 'x' * 69),
    record("'"),
    keyword('PCOUNT', "'" + 'x' * 68 + "'"),
    record("'"),
    keyword('GCOUNT', ' ' * 69 + '1'),
    record('x'),
    keyword('TFIELDS', ''),
    record('8'),
    keyword('THEAP', ' ' * 69 + "'"),
    record("'"),
]


def value_cases():
    other_kind = [keyword('XTENSION', '8'), keyword('BITPIX', "'8'"), keyword('TFORM1', '8'), keyword('THEAP', "''")]
    return [valued(NUMBERS), valued(STRINGS), ended(RUNS), ended(other_kind)]


# ---- random headers ----

ODD_BYTES = b" '/=+-0189.ENDTFORMYPAXIS\0\t\n\x1f!:\x80\xff"
OTHERS = [
    '', 'COMMENT a remark', "HISTORY = 'x", 'TFORM01 = 8', 'NAXIS3  = 4', 'EXTNAME = 4', 'NAXIS   =4', 'TFORM1  8',
]


def random_value(rng):
    kinds = [
        str(rng.randrange(100)),
        str(rng.choice([1, -1]) * rng.randrange(10 ** rng.randrange(1, 20))),
        "'%s'" % ''.join(rng.choice("ab /") for _ in range(rng.randrange(8))),
        "'%s'" % ''.join(rng.choice(["x", " ", "''", "/"]) for _ in range(rng.randrange(12))),
        "'%s'" % rng.choice(['1I', '1J', '3E', 'PE(20)', '12A']).ljust(8),
        ''.join(rng.choice("' /8x-") for _ in range(rng.randrange(1, 10))),
        rng.choice(['0.5', '1.', '-.25', '32768', '1E-3', '2.5D+2', '9223372036854775808', '.']),
    ]
    value = ' ' * rng.choice([0, 0, 0, 1, 5, 20]) + rng.choice(kinds)
    return value + rng.choice(['', '', ' ', ' / a comment', '/c', "  /it's", ' c'])


def random_good(rng, blocks):
    """Records that pass: GOOD and some names more, once each, most of them with a slot, with other records between."""
    names = TFORM[2:80] + TTYPE[2:80] + TSCAL[2:80] + TZERO[2:80] + TNULL[2:80] + [b'THEAP']
    names = rng.sample(names, rng.randrange(4, blocks * 36 - 16))
    more = [keyword(name, random_value(rng)) for name in names]
    room = blocks * 36 - 1 - len(GOOD) - len(more)
    for _ in range(rng.randrange(room)):
        more.insert(rng.randrange(len(more) + 1), record(rng.choice(OTHERS)))
    return GOOD + more


def change_byte(rng, records, at):
    place = rng.choice([rng.randrange(80), rng.randrange(3), rng.randrange(12), rng.randrange(8, 24)])
    new = rng.choice([rng.choice(ODD_BYTES), rng.randrange(256)])
    records[at] = records[at][:place] + bytes([new]) + records[at][place + 1:]


def mutate(rng, records):
    """One change, at any record or near END."""
    at = rng.randrange(len(records))
    to = rng.choice([rng.randrange(len(records)), len(records) - 1 - rng.randrange(3)])
    kind = rng.choice(['byte', 'byte', 'byte', 'swap', 'duplicate', 'blank'])
    if kind == 'byte':
        change_byte(rng, records, rng.choice([at, to]))
    elif kind == 'swap':
        records[at], records[to] = records[to], records[at]
    elif kind == 'duplicate':
        records[to] = records[at]
    else:
        records[to] = record('')


def random_header(rng):
    blocks = rng.choice([1] * 9 + [2, 2, 3])
    records = random_good(rng, blocks)
    if rng.randrange(4) == 0:
        rng.shuffle(records)
    records.append(END)
    for _ in range(rng.choice([0, 1, 1, 1, 2, 2, 3, 5, 8])):
        mutate(rng, records)
    return b''.join(records).ljust(blocks * BLOCK)


def random_cases(seed, room):
    """Random headers as long as there is room for one of three blocks."""
    rng = random.Random(seed)
    made = []
    while room >= 4 + 3 * BLOCK:
        made.append(random_header(rng))
        room -= 4 + len(made[-1])
    return made


# ---- the two files ----


def packed(case):
    return struct.pack('>I', len(case)) + case


# the last case of each file is cut short
CUT = packed(ended(GOOD))[:100]


def cases_of(named, seed):
    room = LIMIT - 1 - len(CUT) - sum(len(packed(case)) for case in named)
    return named + random_cases(seed, room)


def expected(cases):
    lines = []
    for number, case in enumerate(cases):
        lines.append('case %d length %d' % (number, len(case)))
        lines.append('header %d' % header_length(case))
        lines += said_of(case)
    return ''.join(line + '\n' for line in lines + ['cut'])


def write(cases, folder):
    made = b''.join(packed(case) for case in cases) + CUT
    assert len(made) < LIMIT
    os.makedirs(os.path.join(folder, 'data'), exist_ok=True)
    with open(os.path.join(folder, 'data', 'cases.bin'), 'wb') as file:
        file.write(made)
    with open(os.path.join(folder, 'stdout'), 'wb') as file:
        file.write(expected(cases).encode('ascii'))
    print('%d cases, %d bytes' % (len(cases), len(made)))


def main():
    if len(sys.argv) == 3:
        write(cases_of([], int(sys.argv[1])), sys.argv[2])
        return
    named = length_cases() + end_cases() + repeat_cases() + name_cases() + value_cases()
    here = os.path.dirname(os.path.abspath(__file__))
    write(cases_of(named, 1), os.path.join(here, '..', 'crates', 'header_cases'))


if __name__ == '__main__':
    main()
