#!/usr/bin/env python3
"""Writes many texts as TSCALn and TZEROn and compares what a scaled read makes of them with Python's `float`.

From the repository's root:

    tests/real_numbers.py check REPLAY [--seed N] [--texts N] [--control]
        runs the built program, crates/replay/out/replay, on 100,000 texts if not given; with --control also shows that
        each of the wrong rules below is noticed

`check` prints `N texts, M of them numbers, 0 differ`, and on standard error how many texts there were of each kind; or
the first text that differs, and ends with status 1.

A table has 64 columns, and so up to 128 texts. Its columns are of form 2D, with 0 and 2 to the 600th in the one row,
and all are read scaled: the first cell of a column is its zero, and the second its factor times 2 to the 600th, beside
which the zero is lost, or again the zero where the factor is 0. In each second table a column has one of the two alone.

Where texts are refused the program says which column they are of, that with the least n. What is refused is then left
out, and the rest of the table is read again until nothing is refused. No column has two texts that are refused, so
each is decided by itself.

A text is first held to the grammar of docs/FORMAT.md, section 3, by a reader that goes from byte to byte (`parts_of`).
Only then `float` makes the double of it. header_cases.py has the same rules as one expression: both must agree on
every text, and of 20,000 numbers no double may be nearer to the exact fraction.

The texts (KINDS): by the grammar at random; with a byte put in, left out or changed; 14 to 17 digits; powers from -24
to 24; a point at every place of a number; zeros in front and behind; 9223372036854775808 in all forms; zeros with any
power; values halfway between two doubles or next to such; what stands behind a number; any bytes.

--control makes the expected side wrong in one rule at a time (WRONG), and what was printed must differ from each.
"""
import collections
import math
import os
import random
import re
import struct
import subprocess
import sys
import tempfile
from fractions import Fraction

sys.dont_write_bytecode = True

from header_cases import ended, keyword, real_of, text
from layout_cases import NO_REALS, REALS, double_bits, is_nearest, nearly_real, real_text, table

TEXTS = 100000
SAMPLE = 20000
FIELD = 70
COLUMNS = 64

# ---- the rules ----

# the most digits, the largest power either way, whether leading zeros count, whether trailing ones do, whether the
# power of 0 counts, what begins an exponent, whether the point is moved into the power, whether 2 to the 63rd is taken,
# with a point and an exponent too, whether 0 may have a minus, whether a text needs a digit and an exponent one, what
# may come behind, how the double is made
Rules = collections.namedtuple('Rules', 'digits power leading trailing zero letters point large any_large minus bare '
                                        'exponent behind double')


def nearest(sign, digits, power):
    return float('%s%sE%d' % (sign, digits, power))


RIGHT = Rules(digits=15, power=22, leading=False, trailing=True, zero=True, letters='ED', point=True, large=True,
              any_large=False, minus=False, bare=False, exponent=True, behind=lambda rest: rest[:1] in ('', '/'),
              double=nearest)

Parts = collections.namedtuple('Parts', 'sign before point behind letter power rest')


def run_of(field, at, known):
    """The bytes from there on that are among the known ones."""
    end = at
    while end < len(field) and field[end] in known:
        end += 1
    return field[at:end], end


def parts_of(field, letters):
    """The parts of a value field, from byte to byte; the power is a text."""
    _, at = run_of(field, 0, ' ')
    sign = field[at:at + 1] if field[at:at + 1] in ('+', '-') else ''
    before, at = run_of(field, at + len(sign), '0123456789')
    point = field[at:at + 1] == '.'
    behind, at = run_of(field, at + 1, '0123456789') if point else ('', at)
    letter, power = field[at:at + 1], ''
    if letter and letter in letters:
        at += 1
        minus = field[at:at + 1] if field[at:at + 1] in ('+', '-') else ''
        digits, at = run_of(field, at + len(minus), '0123456789')
        power = minus + digits
    else:
        letter = ''
    _, end = run_of(field, at, ' ')
    return Parts(sign, before, point, behind, letter, power, field[end:])


def number_of(field, rules=RIGHT):
    """The double of a value field, or None."""
    sign, before, point, behind, letter, power, rest = parts_of(field, rules.letters)
    digits = before + behind
    if not digits and not rules.bare or not rules.behind(rest):
        return None
    if letter and rules.exponent and not power.lstrip('+-'):
        return None
    places = len(behind) if rules.point else 0
    exponent = (int(power) if power.lstrip('+-') else 0) - places
    counted = digits if rules.leading else digits.lstrip('0')
    counted = counted if rules.trailing else counted.rstrip('0')
    plain = not point and not letter
    is_large = rules.large and int(digits or '0') == 2 ** 63 and (plain or rules.any_large)
    allowed = abs(exponent) <= rules.power or not rules.zero and not counted
    if not is_large and not (len(counted) <= rules.digits and allowed):
        return None
    made = rules.double(sign, digits or '0', exponent)
    return made if made or rules.minus else 0.0


# ---- the texts ----


def spread(rng, of):
    """The text with spaces in front, and spaces or a comment behind, as far as there is room."""
    before = ' ' * rng.choice([0, 0, 0, 0, 1, 10, FIELD])
    behind = rng.choice(['', '', '', ' ', ' / a comment', '/c', '  /', ' /E5', '/1', '   / 2 x'])
    before = before[:max(0, FIELD - len(of))]
    return (before + of + behind)[:FIELD]


def with_point(rng, digits):
    at = rng.randrange(len(digits) + 1)
    return digits[:at] + '.' + digits[at:]


def exponent_of(rng, power):
    if power == 0 and rng.randrange(2):
        return ''
    sign = '-' if power < 0 else rng.choice(['', '', '+'])
    return rng.choice('EED') + sign + '0' * rng.choice([0, 0, 0, 1, 9]) + '%d' % abs(power)


def pointed(rng, digits, power):
    """The same value with a point somewhere and an exponent that makes up for it, or without."""
    if rng.randrange(3) == 0:
        return rng.choice(['', '', '+', '-']) + digits + exponent_of(rng, power)
    made = with_point(rng, digits)
    return rng.choice(['', '', '+', '-']) + made + exponent_of(rng, power + len(made.partition('.')[2]))


def digits_of(rng, count):
    return '%d' % rng.randrange(10 ** (count - 1), 10 ** count)


def by_grammar(rng, k):
    return real_text(rng)


def a_byte_off(rng, k):
    return nearly_real(rng, rng.choice([real_text(rng), rng.choice(REALS)])).decode('latin-1')


def edge_digits(rng, k):
    """14 to 17 digits, also all nines and a one with zeros."""
    count = 14 + k % 4
    return pointed(rng, rng.choice([digits_of(rng, count)] * 3 + ['9' * count, '1' + '0' * (count - 1)]),
                   rng.randrange(-24, 25))


def edge_powers(rng, k):
    """Every power from -24 to 24, with few digits or many."""
    return pointed(rng, digits_of(rng, 1 + k % 15), k % 49 - 24)


def points(rng, k):
    """The point at each place, nothing made up for."""
    digits = digits_of(rng, 1 + rng.randrange(22))
    at = k % (len(digits) + 1)
    return digits[:at] + '.' + digits[at:] + rng.choice(['', '', exponent_of(rng, rng.randrange(-23, 24))])


def zeros_around(rng, k):
    """Zeros in front, which do not count, and behind, which do."""
    digits = digits_of(rng, 1 + rng.randrange(15))
    count = rng.choice([max(0, 15 - len(digits)), max(0, 16 - len(digits)), rng.randrange(20)])
    made = '0' * rng.choice([0, 1, 2, 5, 15, 30]) + digits + '0' * count
    return rng.choice(['', '', '-']) + (with_point(rng, made) if k % 2 else made) + exponent_of(
        rng, rng.choice([0, 0, rng.randrange(-22, 23)]))


def large(rng, k):
    """9223372036854775808 in all forms, and its neighbours."""
    number = 2 ** 63 + (rng.choice([-1, 1, 10]) if k % 6 == 0 else 0)
    digits = '0' * rng.choice([0, 0, 1, 7]) + '%d' % number
    made = rng.choice([digits, digits, digits, digits + '.', with_point(rng, digits), digits + 'E0', digits + 'D+00',
                       digits + '0E-1', digits + '.0', '%dE1' % (number // 10), digits + 'E', digits + 'x'])
    return rng.choice(['', '+', '-']) + made


def any_zero(rng, k):
    """Zeros with points, signs and any power."""
    digits = '0' * rng.choice([1, 1, 2, 15, 16, 20])
    made = with_point(rng, digits) if k % 2 else digits
    return rng.choice(['', '+', '-']) + made + exponent_of(rng, k % 60 - 30)


def halfway(rng, k):
    """A whole number times a power of ten that lies halfway between two doubles, or a digit beside it: an odd number of
    54 bits that 5 to the power divides, times a power of two. And 9007199254740993, which has 16 digits."""
    if k % 40 == 0:
        return rng.choice(['9007199254740993', '9007199254740992', '9007199254740993.0', '90071992547409.93E2'])
    power = 2 + k % 21
    number = rng.randrange(-(-2 ** 53 // 5 ** power), min(2 ** 54 // 5 ** power, 10 ** 15 - 1) + 1) | 1
    return pointed(rng, '%d' % (number + rng.choice([0, 0, 0, -1, 1])), power)


def behind_it(rng, k):
    """What stands behind a number."""
    bad = ['x', ' x', '.', ' .', 'E', ' E5', '-', '+1', ' 1', ',', '\t', '\0', ' \0', '\xa0', '\n', "'", ' 5 /c', 'e5',
           'd1', 'E+', 'D-', 'E 5', 'EE5', 'E5.', 'E5E5', '..', '_1', '%', ')', '\x1f', 'F', 'L', 'f', 'E1/', '/', ' /',
           '//']
    return rng.choice(REALS[:20] + ['5', '1.5']) + rng.choice(bad)


def in_front(rng, k):
    """What stands before a number."""
    bad = ['+-', '--', '+ ', '- ', 'x', '.', '..', '\t', '\0', "'", '/', '(', '\xa0', '=', ',', 'E', 'e', '0x', '#',
           '~']
    return rng.choice(bad) + rng.choice(REALS[:20] + ['5', '1.5'])


def other_value(rng, k):
    words = ['', ' ', '/', ' /1', 'T', 'F', "'1'", "'1.5     '", '(1,0)', 'nan', 'inf', 'NAN', 'INF', '+inf', '-nan',
             'Infinity', '1e5', '1d5', '1.5e-3', '0x1p3', '1_000', '1,5', '.', '+', '-', '+.', '-.', '.E5', 'E5', 'D',
             '1E', '1E+', '9' * FIELD, '0' * FIELD, '1' + '0' * 69, '.' + '0' * 69, '0.' + '0' * 67 + '1',
             '1E' + '0' * 68, '1E' + '9' * 68, '1E-' + '9' * 67, '1E18446744073709551616', '1E18446744073709551594',
             '1E-18446744073709551616', '1E9223372036854775808', '1E4294967296', '18446744073709551617',
             '18446744073709551616.', '0' * 50 + '18446744073709551617', '340282366920938463463374607431768211457',
             '0.' + '0' * 60 + '1E61', '.' + '0' * 40 + '1E+50', '1' + '0' * 40 + 'E-40', '0' * 69 + '7']
    return rng.choice(words + [text(of).decode('latin-1') for of in NO_REALS])


def any_bytes(rng, k):
    if k % 2:
        return ''.join(rng.choice('0123456789.+-ED /') for _ in range(rng.randrange(1, 14)))
    return bytes(rng.randrange(256) for _ in range(rng.randrange(1, 9))).decode('latin-1')


# what each kind is, its share of a hundred, the text with a number
KINDS = [
    ('by the grammar', 24, by_grammar),
    ('with a byte off', 12, a_byte_off),
    ('14 to 17 digits', 10, edge_digits),
    ('powers -24 to 24', 10, edge_powers),
    ('points everywhere', 8, points),
    ('zeros in front and behind', 8, zeros_around),
    ('9223372036854775808', 4, large),
    ('zeros', 4, any_zero),
    ('halfway', 10, halfway),
    ('something behind', 3, behind_it),
    ('something in front', 2, in_front),
    ('other values', 3, other_value),
    ('any bytes', 2, any_bytes),
]


def texts_of(seed, count):
    """So many texts of all kinds in a random order, each a value field without the spaces at its end."""
    rng, made, counts = random.Random('texts %d' % seed), [], {}
    assert sum(share for _, share, _ in KINDS) == 100
    for name, share, _ in KINDS:
        counts[name] = count * share // 100
    counts[KINDS[0][0]] += count - sum(counts.values())
    for name, _, one in KINDS:
        plain = name in ('other values', 'any bytes', 'something behind', 'with a byte off')
        for k in range(counts[name]):
            of = one(rng, k)[:FIELD]
            made.append(of if plain and rng.randrange(4) else spread(rng, of))
    rng.shuffle(made)
    return made, counts


# ---- tables of them ----


def batches_of(texts):
    """Texts for one table each: column by column the factor's and the zero's; None where the column has none."""
    left, single = collections.deque(texts), False
    while left:
        pairs = []
        while left and len(pairs) < COLUMNS:
            one = left.popleft()
            beside = left and not single and (number_of(one) is not None or number_of(left[0]) is not None)
            other = left.popleft() if beside else None
            pairs.append((other, one) if len(pairs) % 2 else (one, other))
        single = not single
        yield pairs


STORED = 0.0, 2.0 ** 600


def table_of(pairs):
    records = table(['2D'] * len(pairs), 16 * len(pairs))
    for n, pair in enumerate(pairs, 1):
        named = zip(('TSCAL%d' % n, 'TZERO%d' % n), pair)
        records += [keyword(name, of.encode('latin-1')) for name, of in named if of is not None]
    return ended(records) + struct.pack('>dd', *STORED) * len(pairs)


def printed(program, folder, file):
    with open(os.path.join(folder, 'table.fits'), 'wb') as to:
        to.write(file)
    done = subprocess.run([program], cwd=folder, stdin=subprocess.DEVNULL, capture_output=True, timeout=120)
    return done.stdout.decode('latin-1') if done.returncode == 0 else '(status %d)' % done.returncode


def wanted_lines(values):
    """What is printed of columns with these factors and zeros."""
    lines = ['row %d' % (2 * len(values))]
    for c, (factor, zero) in enumerate(values):
        for idx, stored in enumerate(STORED):
            lines.append('cell 0 %d %d %016x' % (c, idx, double_bits(zero + factor * stored)))
    return lines + ['at 1 0 %d' % (2 * len(values))]


# a run: the texts of a table, what was printed
Run = collections.namedtuple('Run', 'pairs said')


def values_of(pairs, rules=RIGHT):
    """The factor and zero of each column, a missing one 1 and 0; None for a refused text."""
    return [tuple(missing if of is None else number_of(of, rules) for of, missing in zip(pair, (1.0, 0.0)))
            for pair in pairs]


def wanted(pairs, rules=RIGHT):
    values = values_of(pairs, rules)
    bad = next((n for n, of in enumerate(values, 1) if None in of), None)
    return ['refused 16 %d' % bad] if bad else wanted_lines(values)


def runs_of(program, texts, folder):
    """Each table as it is, and again without its first refused text, until it is read; by what the program says."""
    with open(os.path.join(folder, 'steps.txt'), 'w', encoding='ascii') as to:
        to.write('row 512 scaled\n')
    for pairs in batches_of(texts):
        while pairs:
            one = Run(pairs, printed(program, folder, table_of(pairs)).split('\n')[:-1])
            yield one
            found = re.fullmatch('refused 16 ([0-9]+)', one.said[0]) if one.said else None
            if not found or not 1 <= int(found.group(1)) <= len(pairs):
                break
            pairs = shortened(pairs, int(found.group(1)) - 1)


def shortened(pairs, at):
    """Without the refused text of a column; a good one beside it stays, and the column if there is one."""
    left = tuple(of if of is not None and number_of(of) is not None else None for of in pairs[at])
    return pairs[:at] + [left] * (left != (None, None)) + pairs[at + 1:]


def difference(one, rules=RIGHT):
    """What is wanted and what was printed, the first lines that differ; None if all is the same."""
    lines = wanted(one.pairs, rules)
    if lines == one.said:
        return None
    pairs = zip(lines + [''] * len(one.said), one.said + [''] * len(lines))
    return next(pair for pair in pairs if pair[0] != pair[1])


def tell(one, found):
    line, said = found
    print('wanted %r\ngot    %r' % (line, said))
    for word in (line, said):
        place = re.match('refused 16 ([0-9]+)|cell 0 ([0-9]+) ', word)
        if place:
            n = int(place.group(1)) if place.group(1) else int(place.group(2)) + 1
            print('TSCAL%d and TZERO%d: %r' % (n, n, one.pairs[n - 1]))


# ---- the expected side held to others ----


def self_check(seed, texts):
    """Two readers of the grammar agree on each text, and of a sample of the numbers no double is nearer."""
    rng = random.Random('sample %d' % seed)
    numbers = []
    for of in texts + REALS + [text(one).decode('latin-1') for one in NO_REALS]:
        number, other = number_of(of), real_of(of.encode('latin-1').ljust(FIELD))
        assert number == other and (number is None or math.copysign(1, number) == math.copysign(1, other)), repr(of)
        if number is not None:
            numbers.append((of, number))
    for of, number in rng.sample(numbers, min(SAMPLE, len(numbers))):
        parts = parts_of(of, 'ED')
        exact = Fraction(int(parts.sign + parts.before + parts.behind)) * Fraction(10) ** (
            int(parts.power or '0') - len(parts.behind))
        assert is_nearest(exact, number), repr(of)
    return len(numbers)


# ---- wrong rules ----


def towards_zero(sign, digits, power):
    made = nearest(sign, digits, power)
    exact = Fraction(int(sign + digits)) * Fraction(10) ** power
    return math.nextafter(made, 0.0) if abs(Fraction(made)) > abs(exact) else made


def halves_away(sign, digits, power):
    made = nearest(sign, digits, power)
    exact = Fraction(int(sign + digits)) * Fraction(10) ** power
    other = math.nextafter(made, math.copysign(math.inf, made))
    return other if abs(Fraction(other) - exact) == abs(Fraction(made) - exact) else made


def by_product(sign, digits, power):
    """The digits times the power, each of which is rounded first."""
    return float(sign + digits) * 10.0 ** power


# each wrong in one rule
WRONG = [
    ('14 digits', RIGHT._replace(digits=14)),
    ('16 digits', RIGHT._replace(digits=16)),
    ('powers up to 21', RIGHT._replace(power=21)),
    ('powers up to 23', RIGHT._replace(power=23)),
    ('leading zeros count', RIGHT._replace(leading=True)),
    ('trailing zeros do not count', RIGHT._replace(trailing=False)),
    ('the power of 0 does not count', RIGHT._replace(zero=False)),
    ('no D', RIGHT._replace(letters='E')),
    ('a lower-case e', RIGHT._replace(letters='EDe')),
    ('a lower-case d', RIGHT._replace(letters='EDd')),
    ('the point is not moved', RIGHT._replace(point=False)),
    ('2 to the 63rd is not taken', RIGHT._replace(large=False)),
    ('2 to the 63rd is taken in any form', RIGHT._replace(any_large=True)),
    ('0 keeps its minus', RIGHT._replace(minus=True)),
    ('no digit is needed', RIGHT._replace(bare=True)),
    ('an exponent needs no digit', RIGHT._replace(exponent=False)),
    ('anything may come behind', RIGHT._replace(behind=lambda rest: True)),
    ('nothing may come behind', RIGHT._replace(behind=lambda rest: rest == '')),
    ('rounded towards zero', RIGHT._replace(double=towards_zero)),
    ('halves away from zero', RIGHT._replace(double=halves_away)),
    ('rounded twice', RIGHT._replace(double=by_product)),
    ('the sign is lost', RIGHT._replace(double=lambda sign, digits, power: nearest('', digits, power))),
    ('the sign of the power is lost', RIGHT._replace(
        double=lambda sign, digits, power: nearest(sign, digits, abs(power)))),
    ('the power is lost', RIGHT._replace(double=lambda sign, digits, power: nearest(sign, digits, 0))),
    ('the last bit of the double is lost', RIGHT._replace(double=lambda sign, digits, power: struct.unpack(
        '>d', struct.pack('>Q', double_bits(nearest(sign, digits, power)) & ~1))[0])),
]


def exchanged(one):
    """What would be printed if the factor were read from TZEROn and the zero from TSCALn."""
    swapped = [(zero, factor) for factor, zero in one.pairs]
    return wanted(swapped) != one.said


def control(runs):
    """Each wrong rule must differ from what was printed. The number of those that do not."""
    missed = 0
    for name, rules in WRONG:
        found = next(filter(None, (difference(one, rules) for one in runs)), None)
        missed += found is None
        print('not noticed: ' + name if found is None else 'noticed: %s: %r for %r' % (name, found[0], found[1]))
    found = any(exchanged(one) for one in runs)
    missed += not found
    print(('noticed: ' if found else 'not noticed: ') + 'factor and zero exchanged')
    print('%d wrong rules, %d not noticed' % (len(WRONG) + 1, missed))
    return missed


def check(program, seed, count, controlled):
    program = os.path.abspath(program)
    if not os.access(program, os.X_OK):
        sys.exit('no program at %s' % program)
    texts, counts = texts_of(seed, count)
    numbers = self_check(seed, texts)
    runs, tables, folder = [], 0, tempfile.mkdtemp()
    for one in runs_of(program, texts, folder):
        tables += 1
        found = difference(one)
        if found:
            tell(one, found)
            print('%d tables, then one differs; its file is in %s' % (tables, folder))
            return 1
        runs += [one] if controlled else []
    for name in os.listdir(folder):
        os.remove(os.path.join(folder, name))
    os.rmdir(folder)
    print(', '.join('%s: %d' % of for of in counts.items()), file=sys.stderr)
    print('%d different texts, %d tables' % (len(set(texts)), tables), file=sys.stderr)
    print('%d texts, %d of them numbers, 0 differ' % (count, numbers))
    return 1 if controlled and control(runs) else 0


USAGE = 'usage: tests/real_numbers.py check REPLAY [--seed N] [--texts N] [--control]'


def main(words):
    settings, controlled = {'--seed': '0', '--texts': '%d' % TEXTS}, '--control' in words
    words = [word for word in words if word != '--control']
    while len(words) > 3 and words[-2] in settings:
        settings[words[-2]] = words[-1]
        words = words[:-2]
    if len(words) != 2 or words[0] != 'check' or not all(of.isdigit() for of in settings.values()):
        print(USAGE, file=sys.stderr)
        return 2
    return check(words[1], int(settings['--seed']), int(settings['--texts']), controlled)


if __name__ == '__main__':
    sys.exit(main(sys.argv[1:]))
