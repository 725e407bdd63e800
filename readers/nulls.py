"""Compares the missing values of the port's programs `cells` and `replay` with those of cfitsio and astropy, on random
tables of numbers with TNULLn and on those in the test files of packages. See README.md.

    nulls.py WORK TABLES

WORK is a folder for files. The random tables are made as those of scaled.py, with nulls, and values are compared as
there, an unset one as U. It passes with status 0 if nothing differs but what docs/DIFFERENCES.md explains, and if each
wrong answer is noticed.
"""
import random
import re
import sys

sys.dont_write_bytecode = True

import compare
import scaled
import samples
from header_cases import END, keyword, record, records_of
from layout_cases import INTEGERS, NUMBERS, Refused
from listing import MOST, parted
from scaled import Found, is_left_out, is_whole, layout_in, same, without_nulls
from table_cases import SHIFTS, null_number, row_entries, stored_double, stored_numbers

SEED = 1
WRONG_TABLES = 300
READINGS = ('plain', 'scaled')

# ---- the tables ----


def ended(records, area):
    made = b''.join(records + [END])
    return made + b' ' * (-len(made) % compare.BLOCK) + area


def with_records(table, change):
    """The table with its records before END changed: `change` gives the list of a record's."""
    header, area = parted(table)
    cards = records_of(header)
    return ended([new for card in cards[:cards.index(END)] for new in change(card)], area)


def with_nulls(rng, table):
    """The table with TNULLn at most columns that may have it, of numbers that are stored there or not."""
    layout, more = layout_in(table), []
    stored = stored_numbers(layout, parted(table)[1])
    for n, column in enumerate(layout.columns, 1):
        if column.form[-1] in INTEGERS and rng.randrange(8):
            more.append(keyword('TNULL%d' % n, null_number(rng, column.form[-1], stored[n - 1])))
    header, area = parted(table)
    cards = records_of(header)
    return ended(cards[:cards.index(END)] + more, area)


def tables(seed, count):
    """Those in which no column has a null are left out."""
    rng, made = random.Random('nulls %d' % seed), []
    for one in scaled.tables('nulls %d' % seed, 2 * count):
        one = with_nulls(rng, one)
        if len(one) <= MOST and any(column.null is not None for column in layout_in(one).columns):
            made.append(one)
    assert len(made) >= count
    return made[:count]


def sample_tables():
    """Those of the astropy and numpy packages that have a null, if the port reads them."""
    made = []
    for _, table in samples.installed(''):
        try:
            nulls = [column.null for column in layout_in(table).columns]
        except Refused:
            continue
        if len(table) <= MOST and nulls != [None] * len(nulls):
            made.append(table)
    return made


# ---- what is read ----


def plain_cells(table, work):
    """The cells of B, I, J and K that `cells` shows: each a whole number or U."""
    letters = [column.form[-1] for column in layout_in(table).columns]
    made = {}
    for line in compare.cells_of(table, work):
        word, *words = line.split(' ')
        assert word != 'refused', line
        if word == 'cell' and letters[int(words[1])] in INTEGERS:
            made[tuple(int(of) for of in words[:3])] = words[3] if words[3] == 'U' else int(words[3])
    return made


PORT = {'plain': plain_cells, 'scaled': scaled.port_cells}


def unscaled(table):
    """The table without TSCALn and TZEROn."""
    return with_records(table, lambda card: [] if card[:5] in (b'TSCAL', b'TZERO') else [card])


def given_to(reader, reading, table):
    """astropy has no plain reading of a scaled column, so it is given a copy without scaling."""
    return unscaled(table) if (reader, reading) == ('astropy', 'plain') else table


# ---- what should be read ----


def numbers_of(table, reading):
    """Of each cell the column, the stored number, and what is read if it is not unset."""
    layout, made = without_nulls(table), {}
    columns = layout_in(table).columns
    for row in range(layout.rows):
        for cell in row_entries(layout, parted(table)[1], range(len(layout.columns)), True, row):
            if cell.kind in (INTEGERS if reading == 'plain' else NUMBERS):
                column, stored = columns[cell.column], cell.value[0]
                value = stored if reading == 'plain' else value_of(column, cell.kind, stored)
                made[cell.row, cell.column, cell.idx] = column, stored, value
    return made


def value_of(column, letter, stored):
    """What is read scaled of a stored number."""
    factor, zero = column.scaling or (1.0, 0.0)
    if is_whole(column):
        return stored + SHIFTS[letter][0]
    return zero + factor * stored_double(letter, stored)


def told_by(rule, table, reading):
    """The cells by a rule, which says of a column, a stored number and its value whether the cell is unset."""
    return {place: 'U' if column.null is not None and rule(column, stored, value) else value
            for place, (column, stored, value) in numbers_of(table, reading).items()}


def low_bits(number, bits):
    """A number of so many bits with a sign, the bits above them left out."""
    return (number + 2 ** (bits - 1)) % 2 ** bits - 2 ** (bits - 1)


def by_standard(column, stored, value):
    return stored == column.null


def by_cfitsio(column, stored, value):
    """It keeps the low 32 bits of the null of J."""
    cut = column.form[-1] == 'J' and -2 ** 63 <= column.null < 2 ** 63
    return stored == (low_bits(column.null, 32) if cut else column.null)


def by_astropy(column, stored, value):
    """Where it scales a column, what is read is compared; numpy compares K with a null of 2 to the 63rd as doubles."""
    if column.scaling not in (None, (1, 0)) or column.form[-1] == 'K' and column.null >= 2 ** 63:
        return float(value) == float(column.null)
    return by_standard(column, stored, value)


OWN = {'cfitsio': by_cfitsio, 'astropy': by_astropy}
NOTES = {
    'cfitsio': 'cfitsio: an item of J whose low 32 bits are those of the null',
    'astropy, scaled': 'astropy: an item that is masked by its scaled value',
    'astropy': 'astropy: an item of K that is masked as a double',
}


class Nulls(Found):
    """What was met in a reading; what a reader does by its own rule is explained, if the port is right."""

    def __init__(self, reading):
        super().__init__()
        self.reading = reading

    def explain(self, reader, table, place, ours, theirs):
        own = told_by(OWN[reader], table, self.reading)[place]
        if ours != told_by(by_standard, table, self.reading)[place] or own in (ours, None):
            return super().explain(reader, table, place, ours, theirs)
        if theirs != own and not same(theirs, own):
            return None
        column = layout_in(table).columns[place[1]]
        return NOTES[reader + (', scaled' if reader == 'astropy' and column.scaling else '')]


# ---- wrong answers ----


def null_changed(change):
    """What changes the number of each TNULLn."""
    def of(card):
        found = re.match(rb'(TNULL[0-9]+ *= *)([+-]?[0-9]+)', card)
        return [record(found.group(1) + b'%d' % change(int(found.group(2))))] if found else [card]
    return of


# what is done to a copy for the other readers
FAULTS = {
    'the null is one more': null_changed(lambda number: number + 1 if number < 10 ** 18 else number - 1),
    'the null without its sign': null_changed(abs),
    'no null': lambda card: [] if card.startswith(b'TNULL') else [card],
}


def bits_of(column):
    return {'B': 8, 'I': 16, 'J': 32, 'K': 64}[column.form[-1]]


def in_range(column):
    half = 2 ** (bits_of(column) - 1)
    low, high = (0, 2 * half - 1) if column.form[-1] == 'B' else (-half, half - 1)
    return min(max(column.null, low), high)


# whether a cell is unset, wrongly
RULES = {
    'never': lambda column, stored, value: False,
    'the scaled value is compared': lambda column, stored, value: value == column.null,
    'the low bits are compared': lambda column, stored, value: (stored - column.null) % 2 ** bits_of(column) == 0,
    'B with a sign': lambda column, stored, value: column.null == (
        low_bits(stored, 8) if column.form[-1] == 'B' else stored),
    'the nearest number of the range': lambda column, stored, value: stored == in_range(column),
    'as doubles': lambda column, stored, value: float(stored) == float(column.null),
    'scaled columns have no null': lambda column, stored, value: column.scaling is None and stored == column.null,
    'columns of whole numbers have no null': lambda column, stored, value: not is_whole(column)
    and stored == column.null,
    'arrays have no null': lambda column, stored, value: column.form[0] not in 'PQ' and stored == column.null,
}


def is_seen(reader, given, wrong, *others):
    """Whether a cell that is compared with the reader is other than in each of the others."""
    columns = layout_in(given).columns
    return any(all(not same(value, other[place]) and value != other[place] for other in others)
               for place, value in wrong.items() if not is_left_out(reader, columns[place[1]]))


def missed(reader, reading, given, ours, work):
    """How many wrong tables and wrong answers the comparison does not notice."""
    count = 0
    own = [told_by(OWN[reader], table, reading) for table in given]
    for title, change in FAULTS.items():
        wrong = [with_records(table, change) for table in given]
        places = [k for k, of in enumerate(wrong)
                  if is_seen(reader, given[k], told_by(OWN[reader], of, reading), ours[k], own[k])]
        read = scaled.reader_cells(reader, [wrong[k] for k in places], work, reading)
        noticed = sum(Nulls(reading).add(reader, given[k], ours[k], theirs) for k, theirs in zip(places, read))
        count += scaled.told('%s, %s' % (reading, title), reader, len(places), noticed)
    read = scaled.reader_cells(reader, given, work, reading)
    for title, rule in RULES.items():
        wrong = [told_by(rule, table, reading) for table in given]
        places = [k for k, table in enumerate(given) if is_seen(reader, table, wrong[k], ours[k], own[k])]
        noticed = sum(Nulls(reading).add(reader, given[k], wrong[k], read[k]) for k in places)
        if places or not is_same_here(reader, reading, title):
            count += scaled.told('%s, %s' % (reading, title), reader, len(places), noticed)
    return count


def is_same_here(reader, reading, title):
    """Rules that say nothing else of what is compared: of stored numbers, and of what astropy reads."""
    if reading == 'plain' and title == 'the scaled value is compared':
        return True
    # astropy is given plain copies without scaling, and compares the scaled values
    return reader == 'astropy' and title in (
        'the scaled value is compared', 'columns of whole numbers have no null', 'scaled columns have no null')


def compare_with(reader, reading, given, ours, work):
    """How many tables differ."""
    found = Nulls(reading)
    for table, one, theirs in zip(given, ours, scaled.reader_cells(reader, given, work, reading)):
        found.add(reader, table, one, theirs)
    print('  %s: %d cells compared, %d tables differ' % (reader, found.cells, found.tables))
    if found.first:
        print('  %s: %r' % (reader, found.first))
    for why, number in sorted(found.met.items()):
        if number:
            print('  %s: %d' % (why, number))
    return found.tables


def compare_all(title, given, work, wrong):
    """How many tables differ, and of so many of them how many wrong answers are not noticed."""
    columns = [column for table in given for column in layout_in(table).columns]
    nulls, failed = [column for column in columns if column.null is not None], 0
    print('%s: %d tables, %d columns, %d of them with a null, of which %d are scaled and %d arrays' % (
        title, len(given), len(columns), len(nulls), sum(of.scaling is not None for of in nulls),
        sum(of.form[0] in 'PQ' for of in nulls)))
    for reading in READINGS:
        ours = [PORT[reading](table, work) for table in given]
        print('%s: %d cells, %d of them unset' % (reading, sum(map(len, ours)), sum(
            value == 'U' for one in ours for value in one.values())))
        for reader in scaled.READERS:
            shown = [given_to(reader, reading, table) for table in given]
            failed += compare_with(reader, reading, shown, ours, work)
            failed += missed(reader, reading, shown[:wrong], ours, work) if wrong else 0
    return failed


def main(work, count):
    failed = compare_all('tables with nulls', tables(SEED, int(count)), work, WRONG_TABLES)
    return failed + compare_all('sample files with nulls', sample_tables(), work, 0)


if __name__ == '__main__':
    sys.exit(1 if main(*sys.argv[1:]) else 0)
