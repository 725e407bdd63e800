"""Writes random tables with astropy into a folder, FOLDER/astropyN.fits, and beside each, in .written, the lines that
`cells` must print of it after those of its layout: they are made from the values before they are written.

    astropy_write.py SEED TABLES FOLDER
"""
import os
import sys
import warnings

sys.dont_write_bytecode = True

import numpy
from astropy.io import fits

DTYPES = {'B': 'u1', 'I': 'i2', 'J': 'i4', 'K': 'i8', 'E': 'f4', 'D': 'f8', 'C': 'c8', 'M': 'c16'}
PARTS = {'E': 4, 'C': 4, 'D': 8, 'M': 8}
PRINTED = numpy.arange(33, 127, dtype='u1')


def random_items(rng, letter, shape):
    """Values of any bits, NaNs among them."""
    if letter in 'LX':
        return rng.integers(0, 2, shape) == 1
    size = numpy.dtype(DTYPES[letter]).itemsize
    return numpy.frombuffer(rng.bytes(int(numpy.prod(shape)) * size), DTYPES[letter]).reshape(shape)


def texts(letter, values):
    """The items as `cells` prints them."""
    values = numpy.ascontiguousarray(values).reshape(-1)
    if letter == 'L':
        return ['T' if value else 'F' for value in values]
    if letter == 'X':
        return ['%d' % byte for byte in numpy.packbits(values)]
    if letter == 'A':
        return ['%d' % byte for byte in values.tobytes()]
    if letter not in PARTS:
        return ['%d' % value for value in values.tolist()]
    width = PARTS[letter]
    bits = ['%0*x' % (2 * width, number) for number in values.view('u%d' % width).tolist()]
    return bits if letter in 'ED' else [' '.join(bits[k:k + 2]) for k in range(0, len(bits), 2)]


def words(rng, rows, width):
    """Strings of full length, and shorter ones, which end in bytes 0."""
    made = []
    for _ in range(rows):
        length = width if rng.integers(2) else int(rng.integers(1, width + 1))
        made.append(rng.choice(PRINTED, length).tobytes())
    return numpy.array(made, 'S%d' % width)


def plain_column(rng, n, rows):
    letter, count = rng.choice(list('LXBIJKAEDCM')), int(rng.integers(1, 13))
    if letter == 'A':
        values = words(rng, rows, count)
        return fits.Column('C%d' % n, '%dA' % count, array=values), [
            texts('A', values[row:row + 1]) for row in range(rows)]
    values = random_items(rng, letter, (rows, count))
    dimensions = '(2,%d)' % (count // 2) if count % 2 == 0 and letter not in 'LX' and rng.integers(2) else None
    given = values.reshape(rows, count // 2, 2) if dimensions else values
    if count == 1 and letter != 'X':
        given = values.reshape(rows)
    return fits.Column('C%d' % n, '%d%s' % (count, letter), array=given, dim=dimensions), [
        texts(letter, value) for value in values]


def array_column(rng, n, rows):
    """Arrays of 0 to 9 items, those of the last row not empty. Logicals are left out: see docs/DIFFERENCES.md."""
    kind, letter = rng.choice(list('PQ')), rng.choice(list('BIJKAEDCM'))
    made, expected = numpy.empty(rows, dtype=object), []
    for row in range(rows):
        count = int(rng.integers(1 if row == rows - 1 else 0, 10))
        if letter == 'A':
            content = rng.choice(PRINTED, count)
            made[row] = content.tobytes().decode('ascii')
            expected.append(texts('A', content))
        else:
            made[row] = random_items(rng, letter, (count,))
            expected.append(texts(letter, made[row]))
    return fits.Column('C%d' % n, kind + letter + '()', array=made), expected


def write(rng, path):
    rows = int(rng.integers(1, 12))
    makers = [array_column if rng.integers(3) == 0 else plain_column for _ in range(int(rng.integers(1, 14)))]
    columns = [maker(rng, n, rows) for n, maker in enumerate(makers, 1)]
    fits.BinTableHDU.from_columns([column for column, _ in columns]).writeto(path + '.fits', overwrite=True)
    lines = ['cell %d %d %d %s' % (row, n, idx, value) for row in range(rows)
             for n, (_, expected) in enumerate(columns) for idx, value in enumerate(expected[row])]
    with open(path + '.written', 'w', encoding='ascii') as file:
        file.write('\n'.join(lines + ['end %d' % len(lines)]) + '\n')


def main(seed, tables, folder):
    warnings.simplefilter('ignore')
    for number in range(int(tables)):
        write(numpy.random.default_rng([int(seed), number]), os.path.join(folder, 'astropy%d' % number))


if __name__ == '__main__':
    main(*sys.argv[1:])
