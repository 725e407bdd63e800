"""The smallest input of each difference in docs/DIFFERENCES.md, "The field's readers", with what the three readers
print of it: no table is changed here for any of them.

    cases.py WORK

It prints a case as its name and a line for each reader; cases.txt has what must come. Of missing values the cells
alone are printed, scaled ones as in scaled.py: doubles by their bits behind an f.
"""
import io
import sys

import numpy
from astropy.io import fits

import scaled
from compare import BLOCK, PRIMARY, READERS, cells_of, read_by
from generate import named_table
from header_cases import keyword, record
from layout_cases import WIDTH, changed, inserted, without
from listing import column_records, fixed, required, whole
from names import found_by_port
from table_cases import be


def table(forms, main, heap='', names=None, rows=1, **others):
    """One row, if not said otherwise, of these bytes in hex. NAXIS1 or THEAP may be given."""
    main, heap = bytes.fromhex(main), bytes.fromhex(heap)
    made = required(others.get('NAXIS1', len(main) // rows), rows, len(heap), len(forms))
    if 'THEAP' in others:
        made.append(fixed('THEAP', others['THEAP']))
    return whole(made + column_records(forms, names or ['C%d' % n for n in range(len(forms))]), main + heap)


def of_records(records):
    """Two rows of `1I` POS and `1J` WT, as in docs/FORMAT.md, with other records."""
    return whole(records, bytes.fromhex('000100001f40 ffff0000002a'))


def valued(name, value):
    return of_records(changed(name, value))


def written_by_astropy():
    """One array of True and False."""
    arrays = numpy.empty(1, dtype=object)
    arrays[0] = numpy.array([True, False])
    file = io.BytesIO()
    fits.BinTableHDU.from_columns([fits.Column('A', 'PL()', array=arrays)]).writeto(file)
    return file.getvalue()[BLOCK:]


MOST_LINES = 20

CASES = [
    ('5L with T, F, 0, 1 and Y', table(['5L'], '54 46 00 01 59')),
    ('1PL with T, F, 0, 1 and Y', table(['1PL'], '00000005 00000000', '54 46 00 01 59')),
    ('PL with True and False, written by astropy', written_by_astropy()),
    ('1PX of 9 bits', table(['1PX'], '00000009 00000000', 'ff 80')),
    ('16X with TDIM (8,2)', whole(required(2, 1, 0, 1) + column_records(['16X'], ['A']) + [fixed('TDIM1', '(8,2)')],
                                  bytes.fromhex('ff01'))),
    ('1PA with byte 255', table(['1PA'], '00000001 00000000', 'ff')),
    ('1PB, count 0, offset 2^32 - 1', table(['1PB'], '00000000 ffffffff')),
    ('01PB, count 1', table(['01PB'], '00000001 00000000', '07')),
    ('0PB of 8 bytes and 1B', table(['0PB', '1B'], '00000001 00000000 09', '07')),
    ('0PB of no bytes and 1B', table(['0PB', '1B'], '09', '07')),
    ('1I, 0QD of no bytes and 1B', table(['1I', '0QD', '1B'], '0007 09')),
    ('0QD of no bytes alone', table(['0QD'], '')),
    ('0P of no bytes and 1B', table(['0P', '1B'], '09')),
    ('2PB of 8 bytes', table(['2PB'], '00000001 00000000', '07')),
    ('2PB of 16 bytes', table(['2PB'], '00000001 00000000 00000001 00000001', '07 08')),
    ('1B and 2PB of 16 bytes', table(['1B', '2PB'], '09 00000001 00000000 00000001 00000001', '07 08')),
    ('1PB, count 2, heap of 1 byte', table(['1PB'], '00000002 00000000', '07')),
    ('1PB, count 5000, heap of 1 byte', table(['1PB'], '00001388 00000000', '07')),
    ('1PB, count 2^32 - 1, heap of 1 byte', table(['1PB'], 'ffffffff 00000000', '07')),
    ('1PB, count 1, offset 2^32 - 5', table(['1PB'], '00000001 fffffffb', '07')),
    ('1QB, count 1, offset 2^64 - 9', table(['1QB'], '0000000000000001 fffffffffffffff7', '07')),
    ('THEAP 0 with a row of 8 bytes', table(['1PB'], '00000001 00000000', '07', THEAP=0)),
    ('THEAP past main size + PCOUNT', table(['1PB'], '00000001 00000000', '07', THEAP=10)),
    ('no name', table(['1B'], '07', names=[None])),
    ('an empty name', table(['1B'], '07', names=[''])),
    ('two of the same name', table(['1B', '1B'], '07 08', names=['A', 'A'])),
    ("a name '/", valued('TTYPE1', "'''/'")),
    ('an empty name with a comment that ends in a quote', valued('TTYPE1', "''/'")),
    ('a name of five spaces and A', valued('TTYPE1', "'     A'")),
    ('TTYPE1 as an integer', valued('TTYPE1', '5')),
    ('a text after TTYPE1  =', of_records(inserted(8, record('TTYPE1  =5 x')))),
    ('a text after TFORM1  =', of_records(inserted(8, record('TFORM1  =5 x')))),
    ('BITPIX +8', valued('BITPIX', '%20s' % '+8')),
    ('NAXIS 02', valued('NAXIS', '%20s' % '02')),
    ('GCOUNT 01', valued('GCOUNT', '%20s' % '01')),
    ('GCOUNT 2', valued('GCOUNT', '%20s' % '2')),
    ('NAXIS1 +6', valued('NAXIS1', '%20s' % '+6')),
    ('no GCOUNT', of_records(without('GCOUNT'))),
    ('NAXIS2 twice, 2 and 1', of_records(inserted(8, keyword('NAXIS2', '%20d' % 1)))),
    ('TFORM2 twice, 1J and 1E', of_records(inserted(12, keyword('TFORM2', "'1E'")))),
    ('no TFORM2', of_records(without('TFORM2'))),
    ('A8', table(['A8'], '07')),
    ('1i', table(['1i'], '0007')),
    ('a form with a space in front', table([' 1I'], '0007')),
    ('3Z', table(['3Z'], '070809')),
    ('a count of 20 digits', table(['9' * 20 + 'E'], '3f800000')),
    ('1I, NAXIS1 3', table(['1I'], '000708')),
    ('1I, NAXIS1 1', table(['1I'], '07')),
    ('no columns', whole(required(0, 0, 0, 0), b'')),
    ('no data', of_records(changed())[:BLOCK]),
]

# The names of columns, and the one that is sought.
SOUGHT = [
    ([b'Weight', b'WEIGHT'], b'weight'), ([b'Weight', b'WEIGHT'], b'WEIGHT'), ([b'A', b'A'], b'a'),
    ([b'AB'], b'a*'), ([b'AB'], b'a?'), ([b'A1', b'A2'], b'a#'), ([b'A', b'B'], b'2'), ([b'AB'], b'ab '),
    ([None], b''), ([None, b''], b''), ([b"A'/B"], b"a'/b"), ([b"A'/B"], b"a'"),
    ([b'\xc9'], b'\xc9'), ([b'\xc9'], b'\xe9'), ([b'@'], b'`'),
]


def with_nulls(form, numbers, *records):
    """A row for each number, and records of the column: a name, its value, a name, its value."""
    width = WIDTH[form[-1]]
    made = required(width, len(numbers), 0, 1) + column_records([form], ['C0'])
    made += [keyword(name, value) for name, value in zip(records[::2], records[1::2])]
    return whole(made, be(width, *numbers))


FIVES = ('1I', [5, 6, 0])
MOST_ROWS = 3
LARGE = 2 ** 63 - 1

# missing values: a name and one table or two, which are read plainly or scaled
MISSING = [
    ('1J, TNULL1 2147483648', with_nulls('1J', [-2 ** 31, 2 ** 31 - 1, 0], 'TNULL1', '2147483648')),
    ('1J, TNULL1 4294967295', with_nulls('1J', [-1, 0], 'TNULL1', '4294967295')),
    ('1J, TNULL1 1234554321', with_nulls('1J', [1234554321, 0], 'TNULL1', '1234554321')),
    ('1K, TNULL1 1234554321', with_nulls('1K', [1234554321, 0], 'TNULL1', '1234554321')),
    ('1K, TNULL1 9223372036854775808',
     with_nulls('1K', [LARGE, LARGE - 511, LARGE - 512, -2 ** 63], 'TNULL1', '9223372036854775808')),
    ('1I, TNULL1 40000', with_nulls('1I', [40000 - 2 ** 16], 'TNULL1', '40000')),
    ('1B, TNULL1 -1 and 256', with_nulls('1B', [255, 0], 'TNULL1', '-1'), with_nulls('1B', [0, 1], 'TNULL1', '256')),
    ('1I, TNULL1 5 twice', with_nulls(*FIVES, 'TNULL1', '5', 'TNULL1', '5')),
    ('1I, TNULL1 5 and 6', with_nulls(*FIVES, 'TNULL1', '5', 'TNULL1', '6')),
    ("1I, TNULL1 '5'", with_nulls(*FIVES, 'TNULL1', "'5'")),
    ('1I, TNULL1 5.', with_nulls(*FIVES, 'TNULL1', '5.')),
    ('1I, TNULL1 5E0', with_nulls(*FIVES, 'TNULL1', '5E0')),
    ('1I, TNULL1 5 x', with_nulls(*FIVES, 'TNULL1', '5 x')),
    ('1I, TNULL1 + 5', with_nulls(*FIVES, 'TNULL1', '+ 5')),
    ('1I, no value of TNULL1', with_nulls(*FIVES, 'TNULL1', '')),
    ('1I, TNULL1 5 in 20 digits', with_nulls(*FIVES, 'TNULL1', '5'.zfill(20))),
    ('1K, TNULL1 18446744073709551615', with_nulls('1K', [-1, LARGE], 'TNULL1', '18446744073709551615')),
]
MISSING_SCALED = [
    ('1I, TNULL1 5, TSCAL1 2', with_nulls('1I', [5, 6], 'TNULL1', '5', 'TSCAL1', '2')),
    ('1I, TNULL1 12, TSCAL1 2', with_nulls('1I', [5, 6, 12], 'TNULL1', '12', 'TSCAL1', '2')),
    ('1I, TNULL1 5, TZERO1 32768', with_nulls('1I', [5, 6], 'TNULL1', '5', 'TZERO1', '32768')),
    ('1E with 5, TNULL1 5', with_nulls('1E', [0x40A00000], 'TNULL1', '5')),
]


def port_lines(table, work, reading):
    return cells_of(table, work) if reading == 'plain' else scaled.port_lines(table, work, MOST_ROWS)


def print_missing(cases, work, reading):
    for name, *tables in cases:
        print('%s; %s' % (name, reading))
        read = {'cells' if reading == 'plain' else 'replay': [port_lines(table, work, reading) for table in tables]}
        for reader in scaled.READERS:
            read[reader] = scaled.read_by(reader, [PRIMARY + content for content in tables], work, reading)
        for reader, said in read.items():
            lines = [line for one in said for line in one if line.startswith(('cell ', 'refused ', 'error '))]
            print('  %s: %s' % (reader, shown(lines)))


def shown(lines):
    """The lines in one, of many the first and the last; of an error of astropy its kind alone."""
    if len(lines) > MOST_LINES:
        lines = lines[:5] + ['..'] + lines[-1:]
    return '; '.join(line.split(':')[0] if line.startswith('error ') else line for line in lines)


def print_sought(work):
    """What each finds, without what it prints of the table itself."""
    tables, sought = [named_table(names) for names, _ in SOUGHT], [[name] for _, name in SOUGHT]
    read = {'layout_cases': found_by_port(tables, sought, work)}
    for reader in READERS:
        read[reader] = read_by(reader, [PRIMARY + content for content in tables], work, 'plain', sought=sought)
    for k, pair in enumerate(SOUGHT):
        print('columns %s; sought: %s' % pair)
        for reader, said in read.items():
            print('  %s: %s' % (reader, shown([line for line in said[k] if line.startswith(('find ', 'error '))])))


def main(work):
    tables = [content for _, content in CASES]
    read = {'cells': [cells_of(content, work) for content in tables]}
    for reader in READERS:
        read[reader] = read_by(reader, [PRIMARY + content for content in tables], work, 'plain')
    for k, (name, _) in enumerate(CASES):
        print(name)
        for reader, said in read.items():
            print('  %s: %s' % (reader, shown(said[k])))
    print_sought(work)
    print_missing(MISSING, work, 'plain')
    print_missing(MISSING_SCALED, work, 'scaled')


if __name__ == '__main__':
    sys.stdout.reconfigure(encoding='latin-1')
    main(*sys.argv[1:])
