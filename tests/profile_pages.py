#!/usr/bin/env python3
"""Runs the pages of `coentrift page` on many floats and compares each line with the float's exact value.

From the repository's root:

    tests/profile_pages.py check PROGRAM [--seed N] [--floats N] [--control]
        runs the built program, crates/coentrift/out/coentrift, on tables of random floats, 1,000,000 in all if not
        given, each in both editions; with --control also shows that each of the wrong rules below is noticed

`check` prints `N floats, M lines, 0 differ`, and on standard error how many floats there were of each kind; or the
first line that differs, with the float's bits, and ends with status 1. The tables have up to 131,072 items in a row,
one row or many, and other columns beside, of E too.

The floats (KINDS): all exponents with both signs, halves of both editions and their neighbours a bit away, the floats
nearest to decimal halves, usual weights, those near powers of ten and those that round to zero, subnormals, zeros,
infinities and NaNs. A half of edition 1, an odd multiple of 0.05, is a float only as an odd multiple of 0.25, and one
of edition 2, of 0.005, only as one of 0.125.

The expected text (`weight_text`) is worked out in whole numbers from the float's sign, exponent and fraction, by the
request's rules and not from the program. Of 20,000 of the floats it must be what coentrift.py says, by fractions, and
what Python's decimal makes of the exact value; and a text must lie within half a last place of that value.

--control makes the expected side wrong in one rule at a time (WRONG), and what was written must differ from each. Two
rules have no wrong one, since no float would show it: a text is never over ten places by its rounding alone, as no
float beside such a limit has a fraction that would do it; and a subnormal rounds to zero however it is read.
"""
import collections
import decimal
import itertools
import os
import random
import shutil
import struct
import sys
import tempfile
from fractions import Fraction

sys.dont_write_bytecode = True

import coentrift
from coentrift import LIMIT, Printed, run, weights_file
from header_cases import text
from layout_cases import form_of

FLOATS = 1000000
SAMPLE = 20000
MOST_ITEMS = 131072

# ---- the rules ----

STARS = '*' * 10

# how a line is made: whether a half goes away from zero, whether there is a minus, whether a text is too long, the
# digits before the point, what stands for infinity and for NaN, the decimals, a text in its line, the bits as read
Rules = collections.namedtuple('Rules', 'away minus long whole infinity nan decimals line read')

RIGHT = Rules(
    away=lambda edition, below, negative: edition == 1 or below % 2 == 1,
    minus=lambda units, negative: negative and units > 0,
    long=lambda made: len(made) > 10,
    whole=lambda number: '%d' % number,
    infinity=STARS,
    nan=STARS,
    decimals=lambda number, places: '%0*d' % (places, number),
    line=lambda row, idx, made: '%8d %6d %10s\n' % (row, idx, made),
    read=lambda bits: bits,
)


def weight_text(bits, edition, rules=RIGHT):
    """The text of a float of these bits; the number of the edition is that of its decimals."""
    bits = rules.read(bits)
    negative, exponent, fraction = bits >> 31 == 1, bits >> 23 & 255, bits & 0x7fffff
    if exponent == 255:
        return rules.nan if fraction else rules.infinity
    # the value is number x 2 to the power, and in units of the last decimal one times that
    one = 10 ** edition
    number, power = (fraction | 0x800000, exponent - 150) if exponent else (fraction, -149)
    if power >= 0:
        units = number * one << power
    else:
        units, rest = divmod(number * one, 1 << -power)
        half = 1 << -power - 1
        if rest > half or rest == half and rules.away(edition, units, negative):
            units += 1
    before, behind = divmod(units, one)
    made = '-' if rules.minus(units, negative) else ''
    made += rules.whole(before) + '.' + rules.decimals(behind, edition)
    return STARS if rules.long(made) else made


def page_text(row, floats, edition, rules=RIGHT):
    return ''.join(rules.line(row, i, weight_text(bits, edition, rules)) for i, bits in enumerate(floats))


# ---- the floats ----


def bits_of(value):
    return struct.unpack('>I', struct.pack('>f', value))[0]


def with_sign(rng, bits):
    return bits ^ rng.getrandbits(1) << 31


def beside(rng, value, most=1):
    """The float nearest to a value above zero or one a few bits away, of any sign."""
    return with_sign(rng, bits_of(value) + rng.randrange(-most, most + 1))


def every_exponent(rng, k):
    return (k % 510) << 23 | rng.getrandbits(23) if k % 510 < 255 else (k % 510 + 1) << 23 | rng.getrandbits(23)


def odd_multiple(rng, of):
    """An odd number times the unit, of any size at which that is a float."""
    size = rng.randrange(24)
    return (1 << size | rng.getrandbits(size) | 1) * of


def near_decimal_half(rng, k):
    """Near an odd number of half units, which no float need be."""
    unit = (20, 200)[k % 2]
    number = rng.randrange(10 ** rng.randrange(1, 9))
    return beside(rng, (2 * number + 1) / unit, 2)


def usual(rng, k):
    """A weight as the lab has them: decimals that a scale gives, or any."""
    value = rng.random() * 10 ** rng.randrange(1, 8)
    return with_sign(rng, bits_of(round(value, k % 5) if k % 5 < 4 else value))


def near_power(rng, k):
    """Near a power of ten, or as much below it as a unit or a half of one."""
    power, less = 10.0 ** (k % 13 - 2), rng.choice([0, 0, 0.1, 0.05, 0.01, 0.005])
    return beside(rng, max(power - less, 0.001), rng.choice([1, 3, 40]))


def near_zero(rng, k):
    """Near the smallest number that does not round to zero, or anywhere below it."""
    edge = (0.05, 0.005)[k % 2]
    return beside(rng, edge, 9) if k % 3 else with_sign(rng, bits_of(edge * rng.random()))


def nan(rng, k):
    """With any payload, quiet or signalling; the least and the largest payload too."""
    payload = (1, 0x7fffff, 0x400000, 0x3fffff)[k % 4] if k % 8 < 4 else rng.randrange(1, 1 << 23)
    return with_sign(rng, 255 << 23 | payload)


# what each kind is, its share of a hundred, and the float of it with a number
KINDS = [
    ('all exponents, both signs', 14, every_exponent),
    ('halves of edition 1', 7, lambda rng, k: with_sign(rng, bits_of(odd_multiple(rng, 0.25)))),
    ('a bit above such a half', 4, lambda rng, k: with_sign(rng, bits_of(odd_multiple(rng, 0.25)) + 1)),
    ('a bit below such a half', 4, lambda rng, k: with_sign(rng, bits_of(odd_multiple(rng, 0.25)) - 1)),
    ('halves of edition 2', 7, lambda rng, k: with_sign(rng, bits_of(odd_multiple(rng, 0.125)))),
    ('a bit above such a half of 2', 4, lambda rng, k: with_sign(rng, bits_of(odd_multiple(rng, 0.125)) + 1)),
    ('a bit below such a half of 2', 4, lambda rng, k: with_sign(rng, bits_of(odd_multiple(rng, 0.125)) - 1)),
    ('near decimal halves', 14, near_decimal_half),
    ('usual weights', 18, usual),
    ('near powers of ten', 8, near_power),
    ('near zero', 6, near_zero),
    ('subnormals', 4, lambda rng, k: with_sign(rng, (1, 0x7fffff)[k % 2] if k % 9 < 2 else rng.randrange(1, 1 << 23))),
    ('zeros', 2, lambda rng, k: (k % 2) << 31),
    ('infinities', 1, lambda rng, k: (k % 2) << 31 | 255 << 23),
    ('NaNs', 3, nan),
]


def floats_of(seed, count):
    """So many floats of all kinds in a random order, and how many there are of each kind."""
    rng, made, counts = random.Random('floats %d' % seed), [], {}
    assert sum(share for _, share, _ in KINDS) == 100
    for name, share, one in KINDS:
        # the first kind takes what is left of the hundredths
        counts[name] = count * share // 100
    counts[KINDS[0][0]] += count - sum(counts.values())
    for name, _, one in KINDS:
        made += [one(rng, k) for k in range(counts[name])]
    rng.shuffle(made)
    return made, counts


# ---- tables of them ----

# rows, and items of the column in each, again and again until the floats are used
SHAPES = [(1, MOST_ITEMS), (2, 65536), (7, 9000), (40, 1200), (120, 40), (9, 5), (3, 1), (1, 10007), (3, 100003)]

BESIDE = ['1B', '3A', '1I', '9X', '2E', '1E', '1D', '1PE', '0E', 'QE(7)', '1J', '0PE', '5L']

# a table of the floats: which column they are, and those of each row
Table = collections.namedtuple('Table', 'forms at rows file')


def tables_of(seed, floats):
    rng, shapes, used = random.Random('tables %d' % seed), itertools.cycle(SHAPES), 0
    while used < len(floats):
        rows, items = next(shapes)
        left = len(floats) - used
        if rows * items > left:
            rows, items = (left // items, items) if items <= left else (1, left)
        taken = [floats[used + row * items:used + (row + 1) * items] for row in range(rows)]
        used += rows * items
        before, behind = [[rng.choice(BESIDE) for _ in range(rng.randrange(4))] for _ in 'ab']
        start, end = [sum(form_of(text(form))[2] for form in forms) for forms in (before, behind)]
        area = b''.join(rng.randbytes(start) + struct.pack('>%dI' % items, *row) + rng.randbytes(end) for row in taken)
        forms = before + ['%dE' % items] + behind
        names = ['C%d' % i for i in range(len(forms))]
        names[len(before)] = 'Weight'
        heap = rng.randbytes(rng.randrange(40))
        file = weights_file(forms, rows, area, names, heap)
        assert len(file) <= LIMIT and max(map(len, taken)) <= MOST_ITEMS
        yield Table(forms, len(before), taken, file)


# ---- the check ----

# a run: the row, its floats, the edition and what was written
Run = collections.namedtuple('Run', 'forms row floats edition said')


def runs_of(program, seed, floats, folder):
    """Each row of each table in both editions, by the column's index and by its name in turn."""
    for table in tables_of(seed, floats):
        with open(os.path.join(folder, 'table.fits'), 'wb') as to:
            to.write(table.file)
        for row, of_row in enumerate(table.rows):
            for edition in (1, 2):
                column = '%d' % table.at if (row + edition) % 2 else ('weight', 'WEIGHT')[row % 2]
                words = [text(word) for word in ('page', 'table.fits', column, '%d' % row, '%d' % edition)]
                yield Run(table.forms, row, of_row, edition, run(program, words, folder))


def difference(one, rules=RIGHT):
    """The first line of a run that differs from the rules: its float's bits, what is wanted and what was written."""
    wanted = text(page_text(one.row, one.floats, one.edition, rules))
    if one.said == Printed(wanted, b'', 0):
        return None
    pairs = itertools.zip_longest(wanted.splitlines(True), one.said.out.splitlines(True), fillvalue=b'')
    for i, (line, said) in enumerate(pairs):
        if line != said:
            bits = '%08x' % one.floats[i] if i < len(one.floats) else 'none'
            return bits, line, said
    return 'none', (b'', 0), (one.said.err[:400], one.said.status)


def tell(one, found, folder):
    bits, wanted, said = found
    print('row %d, edition %d of a table of %s, in %s' % (one.row, one.edition, ' '.join(one.forms), folder))
    print('bits %s\nwanted %s\ngot    %s' % (bits, ascii(wanted), ascii(said)))


# ---- the expected side held to others ----

HALVES = {1: decimal.ROUND_HALF_UP, 2: decimal.ROUND_HALF_EVEN}
EXACT = decimal.Context(prec=200)


def decimal_text(bits, edition):
    """The text by Python's decimal, from the exact value."""
    value = struct.unpack('>f', struct.pack('>I', bits))[0]
    if value != value or value in (float('inf'), float('-inf')):
        return STARS
    last = decimal.Decimal((0, (1,), -edition))
    rounded = decimal.Decimal(value).quantize(last, rounding=HALVES[edition], context=EXACT)
    made = '{:f}'.format(rounded.copy_abs() if rounded.is_zero() else rounded)
    return STARS if len(made) > 10 else made


def self_check(seed, floats):
    """Of a sample of the floats three ways to say the text agree, and it is near enough to the value."""
    rng = random.Random('sample %d' % seed)
    for bits in rng.sample(floats, min(SAMPLE, len(floats))):
        stored = struct.pack('>I', bits)
        for edition in (1, 2):
            made = weight_text(bits, edition)
            others = coentrift.weight_text(stored, edition).decode('ascii'), decimal_text(bits, edition)
            assert others == (made, made), '%08x, edition %d: %s, %s, %s' % (bits, edition, made, *others)
            if made != STARS:
                value = Fraction(struct.unpack('>f', stored)[0])
                assert abs(Fraction(made) - value) <= Fraction(1, 2 * 10 ** edition), '%08x' % bits
            assert page_text(7, [bits], edition) == coentrift.page_line(7, 0, text(made)).decode('ascii')


# ---- wrong rules ----


def swapped(bits):
    return struct.unpack('<I', struct.pack('>I', bits))[0]


# each wrong in one rule
WRONG = [
    ('edition 1: halves to the even digit', RIGHT._replace(away=lambda edition, below, negative: below % 2 == 1)),
    ('edition 1: halves towards zero', RIGHT._replace(
        away=lambda edition, below, negative: edition == 2 and below % 2 == 1)),
    ('edition 1: halves up, below zero too', RIGHT._replace(
        away=lambda edition, below, negative: not negative if edition == 1 else below % 2 == 1)),
    ('edition 1: halves to the odd digit', RIGHT._replace(
        away=lambda edition, below, negative: below % 2 == (0 if edition == 1 else 1))),
    ('edition 2: halves away from zero', RIGHT._replace(away=lambda edition, below, negative: True)),
    ('edition 2: halves towards zero', RIGHT._replace(away=lambda edition, below, negative: edition == 1)),
    ('edition 2: halves to the odd digit', RIGHT._replace(
        away=lambda edition, below, negative: edition == 1 or below % 2 == 0)),
    ('the halves of the editions exchanged', RIGHT._replace(
        away=lambda edition, below, negative: edition == 2 or below % 2 == 1)),
    ('a minus on a rounded zero', RIGHT._replace(minus=lambda units, negative: negative)),
    ('no minus below one', RIGHT._replace(minus=lambda units, negative: negative and units > 9)),
    ('no minus at all', RIGHT._replace(minus=lambda units, negative: False)),
    ('stars above 9 places', RIGHT._replace(long=lambda made: len(made) > 9)),
    ('stars above 11 places', RIGHT._replace(long=lambda made: len(made) > 11)),
    ('no stars for a long text', RIGHT._replace(long=lambda made: False)),
    ('a minus is no place', RIGHT._replace(long=lambda made: len(made.lstrip('-')) > 10)),
    ('no digit before the point', RIGHT._replace(whole=lambda number: '%d' % number if number else '')),
    ('two digits before the point', RIGHT._replace(whole=lambda number: '%02d' % number)),
    ('infinity as such', RIGHT._replace(infinity='inf')),
    ('infinity as zero', RIGHT._replace(infinity='0.0')),
    ('NaN as such', RIGHT._replace(nan='nan')),
    ('NaN as zero', RIGHT._replace(nan='0.0')),
    ('nine stars', RIGHT._replace(nan=STARS[1:])),
    ('decimals without zeros in front', RIGHT._replace(decimals=lambda number, places: '%d' % number)),
    ('decimals without zeros behind', RIGHT._replace(
        decimals=lambda number, places: ('%0*d' % (places, number)).rstrip('0') or '0')),
    ('three decimals', RIGHT._replace(decimals=lambda number, places: '%0*d0' % (places, number))),
    ('weights left-aligned', RIGHT._replace(line=lambda row, idx, made: '%8d %6d %-10s\n' % (row, idx, made))),
    ('an index from 1', RIGHT._replace(line=lambda row, idx, made: '%8d %6d %10s\n' % (row, idx + 1, made))),
    ('a row from 1', RIGHT._replace(line=lambda row, idx, made: '%8d %6d %10s\n' % (row + 1, idx, made))),
    ('a row in 6 places, an index in 8', RIGHT._replace(
        line=lambda row, idx, made: '%6d %8d %10s\n' % (row, idx, made))),
    ('a carriage return before the line feed', RIGHT._replace(
        line=lambda row, idx, made: '%8d %6d %10s\r\n' % (row, idx, made))),
    ('the last bit of the fraction lost', RIGHT._replace(read=lambda bits: bits & ~1)),
    ('one bit more', RIGHT._replace(read=lambda bits: bits + (bits << 1 & 0xffffffff < 0xff000000))),
    ('the sign lost', RIGHT._replace(read=lambda bits: bits & 0x7fffffff)),
    ('the low byte first', RIGHT._replace(read=swapped)),
]


def control(runs):
    """Each wrong rule must differ from what was written. The number of those that do not."""
    missed = 0
    for name, rules in WRONG:
        found = next(filter(None, (difference(one, rules) for one in runs)), None)
        if found is None:
            missed += 1
            print('not noticed: ' + name)
        else:
            print('noticed: %s: bits %s, %s for %s' % (name, found[0], ascii(found[1]), ascii(found[2])))
    print('%d wrong rules, %d not noticed' % (len(WRONG), missed))
    return missed


def check(program, seed, count, controlled):
    program = os.path.abspath(program)
    if not os.access(program, os.X_OK):
        sys.exit('no program at %s' % program)
    floats, counts = floats_of(seed, count)
    self_check(seed, floats)
    seen, lines, runs, folder = 0, 0, [], tempfile.mkdtemp()
    for one in runs_of(program, seed, floats, folder):
        found = difference(one)
        if found:
            tell(one, found, folder)
            print('%d lines, then one differs' % lines)
            return 1
        lines += len(one.floats)
        seen += len(one.floats) if one.edition == 1 else 0
        runs += [one] if controlled else []
    shutil.rmtree(folder)
    print(', '.join('%s: %d' % of for of in counts.items()), file=sys.stderr)
    shown = len({bits >> 23 for bits in floats if bits >> 23 & 255 < 255})
    print('%d of 510 exponents with a sign, %d different floats' % (shown, len(set(floats))), file=sys.stderr)
    print('%d floats, %d lines, 0 differ' % (seen, lines))
    return 1 if controlled and control(runs) else 0


USAGE_OF_CHECK = 'usage: tests/profile_pages.py check PROGRAM [--seed N] [--floats N] [--control]'


def main(words):
    settings, controlled = {'--seed': '0', '--floats': '%d' % FLOATS}, '--control' in words
    words = [word for word in words if word != '--control']
    while len(words) > 3 and words[-2] in settings:
        settings[words[-2]] = words[-1]
        words = words[:-2]
    if len(words) != 2 or words[0] != 'check' or not all(of.isdigit() for of in settings.values()):
        print(USAGE_OF_CHECK, file=sys.stderr)
        return 2
    return check(words[1], int(settings['--seed']), int(settings['--floats']), controlled)


if __name__ == '__main__':
    sys.exit(main(sys.argv[1:]))
