"""Prints the scaled values that astropy reads of the columns and arrays of numbers in the first extension of each file,
after a line `file` with its name; the names come on the input, one on a line. A whole number is its digits, and of a
float, as a double, the bits stand behind an f. An error of astropy is a line `error`.

Columns with the factor 1 and the zero of whole numbers without a sign are read with uint=True, as by default, and the
others with uint=False: with uint=True astropy 5.2.1 does not read such a zero with another factor or, of I and J, with
a point or an exponent, nor K with another zero. Arrays that it would scale are left out: it scales that of the first
row alone, and stores it in the stored type.

Where astropy has a missing value stands U. Of columns it has a mask, in the table that astropy.table.Table.read makes.
Of arrays it has none, so their numbers are compared with the null that astropy.io.fits has for the column. With the
argument `plain` the columns and arrays of B, I, J and K alone are printed.
"""
import re
import struct
import sys
import warnings

import numpy
from astropy.io import fits
from astropy.table import Table


def value_text(value):
    if isinstance(value, (int, numpy.integer)):
        return '%d' % value
    assert isinstance(value, (float, numpy.floating)), type(value)
    return 'f' + struct.pack('>d', float(value)).hex()


UNSIGNED = {'I': 2 ** 15, 'J': 2 ** 31, 'K': 2 ** 63}


def field_of(signed, unsigned, n):
    """The values of a column, or None if they are left out."""
    header = signed.header
    array, letter = re.match('[0-9]*([PQ]?)([A-Z])', header['TFORM%d' % (n + 1)]).groups()
    factor, zero = header.get('TSCAL%d' % (n + 1), 1), header.get('TZERO%d' % (n + 1), 0)
    if letter not in ('BIJK' if 'plain' in sys.argv else 'BIJKED') or array and (factor, zero) != (1, 0):
        return None
    whole = (factor, zero) == (1, UNSIGNED.get(letter)) and (isinstance(zero, int) or letter == 'K')
    return (unsigned if whole else signed).data.field(n)


def masks_of(signed):
    """Of each column the rows that are masked, None for none. Of arrays row by row the items."""
    nulls = [column.null for column in signed.columns]
    if nulls == [None] * len(nulls):
        return nulls
    table, masks = Table.read(signed), []
    for n, null in enumerate(nulls):
        if null is not None and re.match('[0-9]*[PQ]', signed.header['TFORM%d' % (n + 1)]):
            masks.append([items == null for items in signed.data.field(n)])
        else:
            masks.append(None if null is None else numpy.atleast_1d(table.columns[n].mask))
    return masks


def values_in(field, mask, row):
    """The values of a field or array, each with whether it is masked."""
    values = [] if field is None else numpy.atleast_1d(field[row]).reshape(-1)
    masked = numpy.zeros(len(values), bool) if mask is None else numpy.atleast_1d(mask[row]).reshape(-1)
    return zip(values, masked)


def lines_of(path):
    with fits.open(path, memmap=False, uint=False) as one, fits.open(path, memmap=False, uint=True) as other:
        fields = [field_of(one[1], other[1], n) for n in range(one[1].header['TFIELDS'])]
        masks = masks_of(one[1])
        for row in range(len(one[1].data)):
            for n, field in enumerate(fields):
                for idx, (value, masked) in enumerate(values_in(field, masks[n], row)):
                    yield 'cell %d %d %d %s' % (row, n, idx, 'U' if masked else value_text(value))


def main():
    warnings.simplefilter('ignore')
    for path in sys.stdin.read().splitlines():
        print('file ' + path)
        try:
            for line in lines_of(path):
                print(line)
        except Exception as error:
            print('error %s: %s' % (type(error).__name__, str(error).replace('\n', ' ')))


if __name__ == '__main__':
    main()
