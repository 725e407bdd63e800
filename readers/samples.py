"""Binary tables in FITS files: cut out of a file, and found in the test files that come with astropy and numpy."""
import gzip
import importlib.util
import os
import re

BLOCK, RECORD = 2880, 80
END = b'END'.ljust(RECORD)


def header_at(content, at):
    """The records of the header that begins there, up to END, and where its data begin; or None."""
    records = []
    while at + RECORD <= len(content):
        card = content[at:at + RECORD]
        at += RECORD
        if card == END:
            return records, -(-at // BLOCK) * BLOCK
        records.append(card)
    return None


def integers_of(records):
    found = [re.match(rb'([A-Z0-9]+) *= *([0-9+-]+) *(/|$)', card) for card in records]
    return {one.group(1).decode(): int(one.group(2)) for one in found if one}


def data_length(values):
    """By section 4.4.1 of the standard; random groups have NAXIS1 0, which does not count."""
    axes = [values['NAXIS%d' % n] for n in range(1, values['NAXIS'] + 1)]
    if not axes:
        return 0
    items = 1
    for axis in axes[1:] if axes[0] == 0 and values.get('GCOUNT', 1) > 1 else axes:
        items *= axis
    return abs(values['BITPIX']) // 8 * values.get('GCOUNT', 1) * (values.get('PCOUNT', 0) + items)


def tables_of(content):
    """Each binary table extension, header and data."""
    at, made = 0, []
    while header_at(content, at):
        records, data = header_at(content, at)
        try:
            end = data + -(-data_length(integers_of(records)) // BLOCK) * BLOCK
        except KeyError:
            # no header that can be measured
            break
        if re.match(rb"XTENSION= *'BINTABLE", records[0] if records else b''):
            made.append(content[at:end])
        at = end
    return made


def unscaled(table):
    """The table with the records that ask for scaled or null values, or for an image of it, made comments: the stored
    values are compared."""
    records, _ = header_at(table, 0)
    asking = re.compile(rb'(T(SCAL|ZERO|NULL)[0-9]+|ZIMAGE) *= ')
    kept = [b'COMMENT ' + card[8:] if asking.match(card) else card for card in records]
    return b''.join(kept) + table[len(kept) * RECORD:]


def installed(written):
    """(name, table) for each binary table in the packages' FITS files, and in one more, if it is there."""
    paths = [(written, os.path.basename(written))] if os.path.exists(written) else []
    for package in ('astropy', 'numpy'):
        (top,) = importlib.util.find_spec(package).submodule_search_locations
        for folder, _, files in sorted(os.walk(top)):
            named = [os.path.join(folder, name) for name in sorted(files) if re.search(r'\.fits(\.gz)?$', name)]
            paths += [(path, os.path.relpath(path, os.path.dirname(top))) for path in named]
    for path, name in paths:
        with open(path, 'rb') as file:
            content = file.read()
        if name.endswith('.gz'):
            content = gzip.decompress(content)
        for number, table in enumerate(tables_of(content), 1):
            yield '%s, table %d' % (name, number), table
