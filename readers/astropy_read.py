"""Prints what astropy reads of the first extension of each file, in the form of the port's program `cells`, after a
line `file` with its name. The names come on the input, one on a line. An error of astropy is a line `error`, in place
of what would follow. Some tables it reads only if a copy is changed; then there is a line `note` for each change,
before the others. Behind them are the columns of the names in PATH.names, one on a line. With the argument `plain`
nothing is changed."""
import io
import re
import sys
import warnings

sys.dont_write_bytecode = True

import numpy
from astropy.io import fits
from astropy.io.fits.column import _get_index

BLOCK, RECORD = 2880, 80
END = b'END'.ljust(RECORD)
PARTS = {'E': 4, 'D': 8, 'C': 4, 'M': 8}


def records_of(file):
    """The extension's records up to END, and its data."""
    records, at = [], BLOCK
    while file[at:at + RECORD] != END:
        records.append(file[at:at + RECORD])
        at += RECORD
    return records, file[-(-(at + RECORD) // BLOCK) * BLOCK:]


def joined(file, records, data):
    header = b''.join(records) + END
    return file[:BLOCK] + header.ljust(-(-len(header) // BLOCK) * BLOCK) + data


def renamed(records, fields):
    """Every column with a name of its own."""
    kept = [card for card in records if not re.match(rb'TTYPE[0-9]+ *= ', card)]
    return kept + [(b"TTYPE%-3d= 'C%d'" % (n, n)).ljust(RECORD) for n in range(1, fields + 1)]


def as_bytes(records, letter):
    """Arrays of bytes in place of arrays of X or A."""
    form = re.compile(rb"(TFORM[0-9]+ *= *'[0-9]*[PQ])" + letter)
    return [form.sub(rb'\1B', card) if card.startswith(b'TFORM') else card for card in records]


def without_rest(records):
    """The form `A8` as `A`."""
    return [re.sub(rb"^(TFORM[0-9]+ *= *'A)[0-9]+", rb'\1', card).ljust(RECORD) for card in records]


def opened(content):
    # bytes and not text, since fields may hold any bytes
    table = fits.open(io.BytesIO(content), memmap=False, character_as_bytes=True, disable_image_compression=True)[1]
    for n in range(len(table.columns)):
        table.data.field(n)
    return table


def readable(records, header, forms, names):
    """The records, changed where astropy would not read the table, and what was changed."""
    notes = []
    if any(re.match('[0-9]*[PQ]X', form) for form in forms):
        records = as_bytes(records, b'X')
        notes.append('arrays of bits, read as bytes')
    shaped = [b'TDIM%d' % n for n, form in enumerate(forms, 1) if re.match('[0-9]*X', form) and 'TDIM%d' % n in header]
    if shaped:
        records = [card for card in records if card[:8].rstrip() not in shaped]
        notes.append('TDIM of bits, left out')
    if any(re.match('A[0-9]', form) for form in forms):
        records = without_rest(records)
        notes.append('a form A without a count and with a rest, without that')
    if '' in names or len(set(names)) < len(names):
        records = renamed(records, len(names))
        notes.append('a column without a name, or two of the same name')
    return records, notes


def read(file, plain):
    """The table, the forms and names of the file itself, and what was changed in the copy that was read."""
    records, data = records_of(file)
    # a byte above 127 comes as ?, as when it opens a file
    header = fits.Header.fromstring(re.sub(rb'[\x80-\xff]', b'?', b''.join(records)).decode('ascii'))
    numbers = range(1, header['TFIELDS'] + 1)
    names = [str(header.get('TTYPE%d' % n, '')) for n in numbers]
    forms = [header['TFORM%d' % n] for n in numbers]
    if plain:
        return opened(file), forms, names, []
    records, notes = readable(records, header, forms, names)
    try:
        return opened(joined(file, records, data)), forms, names, notes
    except UnicodeDecodeError:
        notes.append('an array of characters with a byte above 127, read as bytes')
        return opened(joined(file, as_bytes(records, b'A'), data)), forms, names, notes


def number_texts(letter, values):
    """The items of a field or array of numbers: integers, or floats by their bits."""
    values = numpy.ascontiguousarray(values)
    if letter not in PARTS:
        return ['%d' % value for value in values.reshape(-1).tolist()]
    digits = values.astype(values.dtype.newbyteorder('>')).tobytes().hex()
    width = 2 * PARTS[letter]
    made = [digits[k:k + width] for k in range(0, len(digits), width)]
    return made if letter in 'ED' else [' '.join(made[k:k + 2]) for k in range(0, len(made), 2)]


def logical(byte):
    return {84: 'T', 70: 'F', 0: 'U'}.get(byte, '?%d' % byte)


def array_texts(letter, values, stored):
    """The items of an array, of which `stored` is the descriptor. Logicals come as stored, characters one by one."""
    if letter == 'L':
        return [logical(byte & 255) for byte in values.tolist()]
    if letter == 'A' and values.dtype.kind in 'SU':
        # its chararray drops spaces and byte 0, which are in the stored bytes
        return ['%d' % byte for byte in values.view(numpy.ndarray).astype('S').view('u1').tolist()]
    if letter == 'X':
        # as many bytes as there are bits, or up to the file's end
        bits = int.from_bytes(stored[:len(stored) // 2].tobytes(), 'big')
        return ['%d' % byte for byte in values.tolist()[:(bits + 7) // 8]]
    return number_texts(letter, values)


def bit_texts(field, stored):
    """The bits, and behind the last of them what is stored."""
    packed = numpy.packbits(field).tolist()
    if len(field) % 8:
        packed[-1] |= int(stored[-1]) & 0xFF >> len(field) % 8
    return ['%d' % byte for byte in packed]


def character_texts(field, stored):
    """The stored bytes, if the field is these without spaces or bytes 0 at the end; another text is a fault."""
    text, content = b''.join(numpy.atleast_1d(field).reshape(-1).tolist()), stored.tobytes()
    if content.rstrip(b' \t\n\v\f\r\0') != text.rstrip(b' \t\n\v\f\r\0'):
        return ['(%r)' % text]
    return ['%d' % byte for byte in content]


def field_texts(letters, field, stored):
    if letters[0] in 'PQ':
        return array_texts(letters[1], field, stored)
    if letters == 'L':
        return ['T' if value else 'F' for value in numpy.atleast_1d(field).reshape(-1).tolist()]
    if letters == 'X':
        return bit_texts(field, stored)
    if letters == 'A':
        return character_texts(field, stored)
    return number_texts(letters, field)


def found(names, sought):
    """The column of a name, as `table.data.field` and `table.columns` find it."""
    try:
        return '%d' % _get_index(names, sought)
    except KeyError as error:
        return 'ambiguous' if 'Ambiguous' in str(error) else 'none'


def listing(file, plain, sought):
    table, forms, names, notes = read(file, plain)
    data = table.data
    rows, width, places = len(data), data.dtype.itemsize, data.dtype.fields or {}
    stored = numpy.frombuffer(numpy.asarray(data).tobytes(), 'u1').reshape(rows, width)
    lines = ['table %d columns %d rows %d bytes' % (len(forms), rows, width)]
    columns, start = [], 0
    for n, (form, name) in enumerate(zip(forms, names)):
        letters = re.match(' *[0-9]*([PQ]?[A-Z])', form.upper()).group(1)
        has = table.columns[n].format
        place = places.get(table.columns[n].name)
        # astropy has no place for a field of no bytes
        start = place[1] if place else start
        lines.append('column %d %s %d at %d %s' % (n, has.format, has.repeat, start, name.replace("'", "''") or '-'))
        size = place[0].itemsize if place else 0
        fields = data.field(n) if size else None
        # a chararray gives an empty text for a field of spaces
        fields = fields.view(numpy.ndarray) if letters == 'A' and size else fields
        columns.append((letters, fields, start, start + size))
        start += size
    cells = 0
    for row in range(rows):
        for n, (letters, fields, start, end) in enumerate(columns):
            texts = field_texts(letters, fields[row], stored[row, start:end]) if fields is not None else []
            lines += ['cell %d %d %d %s' % (row, n, idx, text) for idx, text in enumerate(texts)]
            cells += len(texts)
    # in a copy there may be other names
    names = table.columns.names if plain else names
    lines += ['end %d' % cells] + ['find %d %s' % (k, found(names, name)) for k, name in enumerate(sought)]
    return ['note ' + note for note in notes] + lines


def main():
    warnings.simplefilter('ignore')
    for path in sys.stdin.read().splitlines():
        print('file ' + path)
        with open(path, 'rb') as file:
            content = file.read()
        with open(path + '.names', encoding='latin-1', newline='\n') as file:
            sought = file.read().split('\n')[:-1]
        try:
            for line in listing(content, 'plain' in sys.argv, sought):
                print(line)
        except Exception as error:
            print('error %s: %s' % (type(error).__name__, str(error).replace('\n', ' ')))


if __name__ == '__main__':
    sys.stdout.reconfigure(encoding='latin-1')
    main()
