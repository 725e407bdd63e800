"""Runs `cells`, cfitsio and astropy on the same tables, and compares what they print line by line. See README.md.

    compare.py WORK TABLES [FOLDER]

WORK is a folder for files. It passes with status 0.
"""
import collections
import glob
import itertools
import os
import random
import re
import subprocess
import sys

sys.dont_write_bytecode = True
HERE = os.path.dirname(os.path.abspath(__file__))
ROOT = os.path.dirname(HERE)
sys.path.insert(0, os.path.join(ROOT, 'tests'))

import generate
import names
import samples
from header_cases import END, USED, record, records_of
from layout_cases import layout_of
from listing import MOST, cells_text, fixed, parted

SEED = 1
NAMED = 1000
WRITTEN = 400
BLOCK = 2880
PRIMARY = b''.join([record('SIMPLE  =                    T'), fixed('BITPIX', 8), fixed('NAXIS', 0),
                    record('EXTEND  =                    T'), END]).ljust(BLOCK)
BUILT = os.path.join(ROOT, 'target', 'readers')
PYTHON = '/usr/bin/python3'
READERS = {'cfitsio': [os.path.join(BUILT, 'cfitsio_read')],
           'astropy': [PYTHON, os.path.join(HERE, 'astropy_read.py')]}
WRITERS = {'cfitsio': [os.path.join(BUILT, 'cfitsio_write')],
           'astropy': [PYTHON, os.path.join(HERE, 'astropy_write.py')]}
CELLS = os.path.join(ROOT, 'crates', 'cells', 'out', 'cells')

# What is not kept of a record that cfitsio is given.
FOR_CFITSIO = {
    rb'^(BITPIX  = +|NAXIS   = +|GCOUNT  = +)[+0]+([1-9])':
        'BITPIX, NAXIS or GCOUNT without the sign or zeros in front',
    rb"^(TFORM[0-9]+ *= *')0+([0-9]+P)": 'a form of P without zeros in front of its count',
}

# ---- the three readers ----


def whole_file(table):
    """A file of an empty primary HDU and the table; the data are those of the table alone, in whole blocks."""
    header, area = parted(table)
    layout = layout_of(header, len(area))
    area = area[:layout.naxis1 * layout.rows + layout.pcount]
    return PRIMARY + header + area + bytes(-len(area) % BLOCK)


def readable(reader, table):
    """The table, changed where the reader would not read it, and what was changed. astropy_read.py does some more."""
    header, area = parted(table)
    records, notes = records_of(header), set()
    for k, card in enumerate(records):
        name = card[:8].rstrip()
        if name in USED and card[8:10] != b'= ':
            records[k] = record('COMMENT')
            notes.add('a record of a used name that holds no value, left out')
        elif reader == 'cfitsio':
            for pattern, note in FOR_CFITSIO.items():
                if re.match(pattern, card):
                    records[k] = re.sub(pattern, rb'\1\2', card).ljust(len(card))
                    notes.add(note)
    return b''.join(records) + area, ['%s: tables read with a change, %s' % (reader, note) for note in notes]


def cells_of(table, work):
    """What `cells` prints of a table."""
    with open(os.path.join(work, 'table.fits'), 'wb') as file:
        file.write(table)
    return subprocess.run([CELLS], cwd=work, capture_output=True, check=True).stdout.decode('latin-1').split('\n')[:-1]


def read_by(reader, files, work, *words, sought=None):
    """What a reader prints of each file, and of the names sought in it."""
    paths = [os.path.join(work, '%d.fits' % k) for k in range(len(files))]
    for path, content, wanted in zip(paths, files, sought or [[]] * len(files)):
        with open(path, 'wb') as file:
            file.write(content)
        with open(path + '.names', 'wb') as file:
            file.write(b''.join(name + b'\n' for name in wanted))
    listed = ''.join(path + '\n' for path in paths).encode()
    said = subprocess.run(READERS[reader] + list(words), input=listed, stdout=subprocess.PIPE, check=True).stdout
    parts = re.split('^file .*\n', said.decode('latin-1'), flags=re.MULTILINE)[1:]
    assert len(parts) == len(files)
    return [part.split('\n')[:-1] for part in parts]


# ---- comparing ----

def forms_of(table):
    """The forms as they are written."""
    header, area = parted(table)
    found = dict(re.findall(rb"TFORM(\d+) *= *'([^']*)'", header))
    return [found[b'%d' % (n + 1)].decode() for n in range(len(layout_of(header, len(area)).columns))]


def explanation(reader, letters, ours, theirs):
    """The difference of two lines that docs/DIFFERENCES.md explains, or None."""
    words, others = ours.split(' '), theirs.split(' ')
    if reader == 'astropy' and words[0] == 'column' and words[:6] == others[:6]:
        if re.search("'' */", ours):
            return 'astropy: a name with a quote and then a slash, which is cut'
        if words[6:] == ['-'] and re.match("'' */", ' '.join(others[6:])):
            return 'astropy: an empty name whose comment ends in a quote, which is taken for the name'
    if words[0] != 'cell' or words[:4] != others[:4]:
        return None
    letter = letters[int(words[2])]
    if reader == 'astropy' and letter == 'L' and others[4] == 'F' and words[4] not in 'TF':
        return 'astropy: an L byte other than T and F, which is False'
    if reader == 'cfitsio' and letter in ('L', 'PL', 'QL') and (words[4], others[4]) == ('?1', '?49'):
        return 'cfitsio: L byte 1, which is given as 49'
    return None


def difference(reader, forms, ours, theirs):
    """The first two lines that differ without an explanation, or None, and how often each explanation was met."""
    met = collections.Counter()
    letters = [re.match('[0-9]*([PQ]?[A-Z])', form).group(1) for form in forms]
    for one, other in itertools.zip_longest(ours, theirs, fillvalue=''):
        if one == other:
            continue
        if one.startswith('refused 13 '):
            met['%s: tables compared up to an array that leaves the heap' % reader] += 1
            break
        name = explanation(reader, letters, one, other)
        if name is None:
            return (one, other), met
        met[name] += 1
    return None, met


class Totals:
    """What was met over all tables."""

    def __init__(self):
        self.differences, self.met = 0, collections.Counter()

    def add(self, reader, name, pair, met):
        self.met += met
        if pair:
            self.differences += 1
            print('  %s, %s: cells has %r, it has %r' % (reader, name, *pair))


def cells_in(lines):
    return sum(line.startswith('cell ') for line in lines)


def first_pair(lines, others):
    """The first two lines that differ, or None."""
    pairs = itertools.zip_longest(lines, others, fillvalue='')
    return next((pair for pair in pairs if pair[0] != pair[1]), None)


def compare_with(reader, tables, ours, sought, found, work, totals):
    before = totals.differences
    given = [readable(reader, table) for table in tables.values()]
    read = read_by(reader, [whole_file(table) for table, _ in given], work, sought=[sought[name] for name in tables])
    for (name, table), (_, changes), lines in zip(tables.items(), given, read):
        notes = [line for line in lines if line.startswith('note ')]
        said = [line for line in lines if not line.startswith(('note ', 'find '))]
        pair, met = difference(reader, forms_of(table), ours[name], said)
        met.update(changes + ['%s: tables read with a change, %s' % (reader, note[5:]) for note in notes])
        other, more = names.difference(reader, table, sought[name], found[name], lines)
        totals.add(reader, name, pair or other, met + more)
    print('  %s: %d tables, %d cells and %d names sought compared, %d tables differ' % (
        reader, len(tables), sum(cells_in(ours[name]) for name in tables), sum(len(sought[name]) for name in tables),
        totals.differences - before))


def compare(title, tables, work, totals):
    """Tables by name. What `cells` prints of each is returned."""
    ours = {name: cells_of(table, work) for name, table in tables.items()}
    print('%s: %d tables, %d cells' % (title, len(tables), sum(cells_in(lines) for lines in ours.values())))
    rng = random.Random(SEED)
    sought = {name: names.sought_in(rng, table) for name, table in tables.items()}
    found = dict(zip(tables, names.found_by_port(list(tables.values()), list(sought.values()), work)))
    sound = dict(tables)
    for name, lines in ours.items():
        if any(line.startswith('refused 13 ') for line in lines):
            # the others go on there, so the refusal is held to what tests/listing.py says of the bytes
            said = cells_text(sound.pop(name)).decode('latin-1').split('\n')[:-1]
            totals.add('tests/listing.py', name, first_pair(lines, said), collections.Counter())
    compare_with('cfitsio', tables, ours, sought, found, work, totals)
    # astropy reads a column at once, and so does not get as far as a bad descriptor
    compare_with('astropy', sound, ours, sought, found, work, totals)
    return ours


# ---- files that the others wrote ----


def compare_written(writer, work, totals):
    """`cells` must print the values that were handed to the writer."""
    folder = os.path.join(work, writer)
    os.makedirs(folder, exist_ok=True)
    subprocess.run(WRITERS[writer] + ['%d' % SEED, '%d' % WRITTEN, folder], check=True)
    tables, values = {}, {}
    for number in range(WRITTEN):
        name = '%s%d' % (writer, number)
        with open(os.path.join(folder, name + '.fits'), 'rb') as file:
            (tables[name],) = samples.tables_of(file.read())
        with open(os.path.join(folder, name + '.written'), encoding='ascii') as file:
            values[name] = file.read().split('\n')[:-1]
    longest = max(len(table) for table in tables.values())
    assert longest <= MOST, longest
    ours = compare('written by ' + writer, tables, work, totals)
    differ = 0
    for name, lines in ours.items():
        shown = [line for line in lines if not line.startswith(('table ', 'column '))]
        pair = first_pair(shown, values[name])
        totals.add(writer, name + ' as written', pair, collections.Counter())
        differ += pair is not None
    print('  beside the values written: %d tables differ' % differ)


def compare_samples(work, totals):
    """The tables in the test files of the astropy and numpy packages, and in that of cfitsio's test program."""
    found, refused = {}, {}
    for name, table in samples.installed(os.path.join(work, 'testprog.fit')):
        lines = cells_of(table, work)
        if len(table) > MOST or lines[0].startswith('refused '):
            refused[name] = 'longer than %d bytes' % MOST if len(table) > MOST else lines[0]
        else:
            found[name] = samples.unscaled(table)
    compare('sample files', found, work, totals)
    for name, why in refused.items():
        print('  left out: %s: %s' % (name, why))


def main(work, count, folder=None):
    totals = Totals()
    made = {'table %d' % k: table for k, table in enumerate(generate.tables(SEED, int(count)))}
    compare('random tables', made, work, totals)
    named = {'table of names %d' % k: table for k, table in enumerate(generate.named_tables(SEED, NAMED))}
    compare('tables of names', named, work, totals)
    if folder:
        cases = {}
        for path in sorted(glob.glob(os.path.join(folder, '*', 'table.fits'))):
            with open(path, 'rb') as file:
                cases[path] = file.read()
        compare("tables of oracle's generator", cases, work, totals)
    for writer in WRITERS:
        compare_written(writer, work, totals)
    compare_samples(work, totals)
    print('explained in docs/DIFFERENCES.md, by cells where not tables:')
    for name, number in sorted(totals.met.items()):
        print('  %s: %d' % (name, number))
    return totals.differences


if __name__ == '__main__':
    sys.exit(1 if main(*sys.argv[1:]) else 0)
