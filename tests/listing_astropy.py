#!/usr/bin/env python3
"""Holds crates/cells/stdout, the listing of the bundled table, to what the Python package astropy reads from the table.

    python3 tests/listing_astropy.py

It needs astropy and numpy (Debian 12: python3-astropy 5.2.1), and is no part of the gate. table.fits is the extension
alone, so a primary header is put before it.

Compared, cell by cell: B, I, J, K as numbers; E, D, C, M bit by bit; X as bits packed from the front; A as its byte;
the arrays of P and Q likewise, and their lengths; for each column its start in the row, its letter and its name, in
which a doubled quote is one quote to astropy. The number of rows, columns and bytes in a row is compared too.

Where astropy does otherwise: an L byte is true if it is T and false otherwise, so of F, unset and odd bytes only that
they are not T is compared; spaces and zeros at the end of an A field are dropped, so that the rest is compared with
them alone; it has no bit arrays in the heap, so PX and QX are read as PB and QB, of as many bytes as there are bits, of
which the first count/8, rounded up, are the array; this version of it reads no table with a column that has no name or
an empty one, so the empty name is filled and the column without TTYPEn gets one, in the place of the COMMENT record.
All this is done to a copy. The U and ?n of L rest on listing.py alone.
"""
import io
import os
import sys
import warnings

import numpy
from astropy.io import fits

HERE = os.path.dirname(os.path.abspath(__file__))
CELLS = os.path.join(HERE, '..', 'crates', 'cells')
FLOATS = {'E': '>f4', 'D': '>f8', 'C': '>c8', 'M': '>c16'}


def opened():
    """The table as astropy has it, its names, and its forms as they are written."""
    with open(os.path.join(CELLS, 'data', 'table.fits'), 'rb') as file:
        content = file.read()
    primary = fits.PrimaryHDU().header.tostring().encode('ascii')
    header = fits.Header.fromstring(content[:content.index(b'END' + b' ' * 77) + 80].decode('ascii'))
    columns = range(1, header['TFIELDS'] + 1)
    names = [header.get('TTYPE%d' % n) for n in columns]
    plain, remark = content.replace(b"PX(", b"PB(").replace(b"QX(", b"QB("), content.index(b'COMMENT ')
    plain = plain.replace(b"= '        '", b"= 'EMPTY   '")
    plain = plain[:remark] + (b"TTYPE%d  = 'UNNAMED '" % (names.index(None) + 1)).ljust(80) + plain[remark + 80:]
    listed = fits.open(io.BytesIO(primary + plain))
    listed.verify('exception')
    return listed[1], names, [header['TFORM%d' % n] for n in columns]


def letters_of(form):
    return form.lstrip('0123456789')


def hexed(values, letter):
    """Floats by their bits; the two of a complex one with a space between."""
    digits = numpy.atleast_1d(values).astype(FLOATS[letter]).tobytes().hex()
    width = 2 * numpy.dtype(FLOATS[letter]).itemsize
    made = [digits[k:k + width] for k in range(0, len(digits), width)]
    return made if letter in 'ED' else [one[:width // 2] + ' ' + one[width // 2:] for one in made]


def texts(letter, field):
    """The values of a field as the listing has them; None for one that astropy does not tell."""
    if letter in FLOATS:
        return hexed(field, letter)
    if letter == 'A':
        return ['%d' % ord(one) for one in ''.join(numpy.atleast_1d(field))]
    if letter == 'L':
        return ['T' if one == 1 or one == ord('T') else None for one in numpy.atleast_1d(field)]
    if letter == 'X':
        bits = ''.join('1' if bit else '0' for bit in field)
        return ['%d' % int(bits[k:k + 8].ljust(8, '0'), 2) for k in range(0, len(bits), 8)]
    return ['%d' % one for one in numpy.atleast_1d(field)]


def field_texts(form, field):
    letters = letters_of(form)
    if letters[0] in 'PQ':
        if letters[1] == 'X':
            return texts('B', field)[:(len(field) + 7) // 8]
        return texts(letters[1], field) if len(field) else []
    return texts(letters[0], field) if numpy.size(field) else []


def same(form, listed, read):
    """Whether the listing's values are those that astropy read."""
    letters = letters_of(form)
    letter = letters[1] if letters[0] in 'PQ' else letters[0]
    if letter == 'L':
        return [value == 'T' for value in listed] == [value == 'T' for value in read]
    if letter == 'A':
        return listed[:len(read)] == read and set(listed[len(read):]) <= {'0', '32'}
    return listed == read


def main():
    # astropy warns of the field 0E
    warnings.simplefilter('ignore')
    table, names, forms = opened()
    data = table.data
    with open(os.path.join(CELLS, 'stdout'), encoding='ascii') as file:
        lines = file.read().splitlines()
    faults = []
    if lines[0] != 'table %d columns %d rows %d bytes' % (len(forms), len(data), data.dtype.itemsize):
        faults.append(lines[0])
    starts = [data.dtype.fields[name][1] for name in data.dtype.names]
    for c, line in enumerate(line for line in lines if line.startswith('column ')):
        words = line.split(' ')
        wanted = ['column', str(c), letters_of(forms[c])[0], str(starts[c]), names[c] or '-']
        if words[:3] + [words[5], words[6].replace("''", "'")] != wanted:
            faults.append('%s: %s' % (line, wanted))
    cells = {}
    for line in lines:
        if line.startswith('cell '):
            _, row, column, idx, value = line.split(' ', 4)
            values = cells.setdefault((int(row), int(column)), [])
            assert len(values) == int(idx), line
            values.append(value)
    count = 0
    for row in range(len(data)):
        for c, form in enumerate(forms):
            field = data.field(c)
            listed, read = cells.pop((row, c), []), field_texts(form, field[row]) if len(field) else []
            count += len(listed)
            if not same(form, listed, read):
                faults.append('row %d, column %d, %s: %s, astropy %s' % (row, c, form, listed, read))
    if cells or lines[-1] != 'end %d' % count:
        faults.append('cells that astropy has not: %s; %s' % (cells, lines[-1]))
    for fault in faults:
        print(fault)
    print('%d columns, %d cells compared, %d differ' % (len(forms), count, len(faults)))
    return 1 if faults else 0


if __name__ == '__main__':
    sys.exit(main())
