"""Wrong answers, each of which must be noticed. The other readers are given a copy of a table in which one thing is
changed, so what they print is what a reader with that fault prints; `cells` is given the table itself. For names it is
the port's answers that are made wrong.

    controls.py WORK
"""
import random
import sys

from compare import READERS, SEED, cells_of, difference, forms_of, parted, read_by, readable, whole_file
import generate
import names
from layout_cases import WIDTH, layout_of

TABLES = 300


def changed(table, at, content):
    return table[:at] + content + table[at + len(content):]


def fields_of(table, letters):
    """Where each field of these letters begins in the table, and its column."""
    header, area = parted(table)
    layout = layout_of(header, len(area))
    return [(len(header) + row * layout.naxis1 + column.start, column) for row in range(layout.rows)
            for column in layout.columns if column.form in letters and column.count]


def arrays_of(table, letters):
    """Where each array of these letters begins, and its bytes."""
    header, area = parted(table)
    layout = layout_of(header, len(area))
    for row in range(layout.rows):
        for column in layout.columns:
            if column.form[0] in 'PQ' and column.form[1] in letters:
                place = row * layout.naxis1 + column.start
                half = column.size // 2
                count = int.from_bytes(area[place:place + half], 'big')
                offset = int.from_bytes(area[place + half:place + column.size], 'big')
                if count:
                    yield len(header) + layout.theap + offset, count * WIDTH[column.form[1]]


def bit_of(rng, table, stretches):
    """The table with another bit in one of these stretches, each a place and a length."""
    if not stretches:
        return None
    start, size = rng.choice(stretches)
    at = start + rng.randrange(size)
    return changed(table, at, bytes([table[at] ^ 1 << rng.randrange(8)]))


def bit_of_float(rng, table):
    return bit_of(rng, table, [(start, column.size) for start, column in fields_of(table, 'EDCM')])


def bit_of_byte(rng, table):
    return bit_of(rng, table, [(start, column.size) for start, column in fields_of(table, 'BAX')])


def bit_of_array(rng, table):
    return bit_of(rng, table, list(arrays_of(table, 'BIJKEDCM')))


def logical_changed(rng, table):
    """F for T, or T for F."""
    places = [at for start, column in fields_of(table, 'L') for at in range(start, start + column.size)
              if table[at] in b'TF']
    if not places:
        return None
    at = rng.choice(places)
    return changed(table, at, b'F' if table[at:at + 1] == b'T' else b'T')


def bytes_swapped(rng, table):
    pairs = [at for start, column in fields_of(table, 'IJK')
             for at in range(start, start + column.size, WIDTH[column.form]) if table[at] != table[at + 1]]
    if not pairs:
        return None
    at = rng.choice(pairs)
    return changed(table, at, table[at + 1:at + 2] + table[at:at + 1])


def neighbour_column(rng, table):
    """A field in the place of the next one, which is of the same size."""
    fields = fields_of(table, 'BIJKEDCM')
    pairs = [(one, two, column.size) for (one, column), (two, other) in zip(fields, fields[1:])
             if two == one + column.size and other.size == column.size
             and table[one:two] != table[two:two + other.size]]
    if not pairs:
        return None
    one, two, size = rng.choice(pairs)
    return changed(table, two, table[one:one + size])


def row_repeated(rng, table):
    header, area = parted(table)
    layout = layout_of(header, len(area))
    rows = [row for row in range(1, layout.rows)
            if any(table[start - layout.naxis1:start - layout.naxis1 + column.size] != table[start:start + column.size]
                   for start, column in fields_of(table, 'BIJKEDCM')
                   if (start - len(header)) // layout.naxis1 == row)]
    if not rows:
        return None
    at = len(header) + rng.choice(rows) * layout.naxis1
    return changed(table, at, table[at - layout.naxis1:at])


FAULTS = {'one bit of a float': bit_of_float, 'one bit of B, A or X': bit_of_byte,
          'one bit of a number in an array': bit_of_array, 'T for F or F for T': logical_changed,
          'two bytes of an integer swapped': bytes_swapped, "a neighbouring column's value": neighbour_column,
          'the row before repeated': row_repeated}


# The columns of a name by wrong rules.
RULES = {
    'names by their bytes': lambda named, sought: [n for n, name in enumerate(named) if name == sought],
    '@ and ` alike': lambda named, sought: names.columns_of(
        [name and name.replace(b'`', b'@') for name in named], sought.replace(b'`', b'@')),
    'the last of a name': lambda named, sought: names.columns_of(named, sought)[::-1],
}


def names_missed(work):
    """How many tables with a wrong answer neither cfitsio nor astropy differs from."""
    rng, missed = random.Random(SEED), 0
    tables = generate.named_tables(SEED, TABLES)
    sought = [names.sought_in(rng, table) for table in tables]
    ours = names.found_by_port(tables, sought, work)
    read = {reader: read_by(reader, [whole_file(readable(reader, table)[0]) for table in tables], work, sought=sought)
            for reader in READERS}
    for title, rule in RULES.items():
        wrong = [['find %d %s' % (j, names.answer(rule(names.names_of(table), name))) for j, name in enumerate(of)]
                 for table, of in zip(tables, sought)]
        made = [k for k, lines in enumerate(wrong) if lines != ours[k]]
        noticed = {reader: {k for k in made if names.difference(reader, tables[k], sought[k], wrong[k], said[k])[0]}
                   for reader, said in read.items()}
        on = ['%s on %d' % (reader, len(of)) for reader, of in noticed.items()]
        print('control, %s: %d tables, noticed by %s' % (title, len(made), ', by '.join(on)))
        missed += len(made) - len(set.union(*noticed.values())) + (len(made) == 0)
    return missed


def main(work):
    rng, missed = random.Random(SEED), names_missed(work)
    tables = generate.tables(SEED, TABLES)
    ours = [cells_of(table, work) for table in tables]
    for name, fault in FAULTS.items():
        made = [(k, wrong) for k, wrong in enumerate(fault(rng, table) for table in tables) if wrong]
        for reader in READERS:
            read = read_by(reader, [whole_file(readable(reader, wrong)[0]) for _, wrong in made], work)
            noticed = 0
            for (k, _), lines in zip(made, read):
                said = [line for line in lines if not line.startswith('note ')]
                noticed += difference(reader, forms_of(tables[k]), ours[k], said)[0] is not None
            print('control, %s: %d tables, noticed by %s on %d' % (name, len(made), reader, noticed))
            missed += len(made) - noticed + (len(made) == 0)
    return missed


if __name__ == '__main__':
    sys.exit(1 if main(*sys.argv[1:]) else 0)
