#!/usr/bin/env python3
"""Writes many texts as TNULLn and compares which items `cells` shows as unset with Python's `int`.

From the repository's root:

    tests/null_numbers.py check CELLS [--seed N] [--texts N] [--control]
        runs the built program, crates/cells/out/cells, on 100,000 texts if not given; with --control also shows that
        each of the wrong rules below is noticed

`check` prints `N texts, M of them numbers, 0 differ`, and on standard error how many texts there were of each kind; or
the first text that differs, and ends with status 1.

A table has 64 columns of B, I, J or K, each with a text and a field of ITEMS numbers: that of the text, its neighbours,
those with another sign or another number of digits, the ends of the type's range, 0. A number that the type does not
hold is stored without its high bits, so that it is there for a reader that would cut the text's number too.

Where texts are refused the program says which column they are of, that with the least n. That column is then left out,
and the rest of the table is read again until nothing is refused.

A text is first held to the grammar of docs/FORMAT.md, section 3, by a reader that goes from byte to byte. Only then
`int` makes the number of it. header_cases.py has the same rules as one expression: both must agree on every text.

--control makes the expected side wrong in one rule at a time (WRONG), and what was printed must differ from each.
"""
import collections
import os
import random
import re
import sys
import tempfile

sys.dont_write_bytecode = True

from header_cases import ended, keyword, null_of, text
from layout_cases import INTEGERS, NO_NULLS, NULLS, WIDTH, nearly_real, null_text, real_text, table
from real_numbers import COLUMNS, FIELD, any_bytes, behind_it, in_front, printed, run_of, spread

TEXTS = 100000
ITEMS = 12

# ---- the rules ----

# the most digits, whether leading zeros count, the signs, whether one may have spaces behind it, what counts as a
# space, whether a text needs a digit, what may come behind a number, how its digits make a number, whether a stored
# number of a letter is the text's
Rules = collections.namedtuple('Rules', 'digits leading signs apart spaces bare behind number match')


def exactly(letter, stored, number):
    return stored == number


RIGHT = Rules(digits=19, leading=True, signs='+-', apart=False, spaces=' ', bare=False,
              behind=lambda rest: rest[:1] in ('', '/'), number=lambda sign, digits: int(sign + digits), match=exactly)


def number_of(field, rules=RIGHT):
    """The number of a value field, or None."""
    _, at = run_of(field, 0, rules.spaces)
    sign = field[at:at + 1] if field[at:at + 1] and field[at:at + 1] in rules.signs else ''
    at += len(sign)
    if rules.apart:
        _, at = run_of(field, at, rules.spaces)
    digits, at = run_of(field, at, '0123456789')
    _, end = run_of(field, at, rules.spaces)
    counted = digits if rules.leading else digits.lstrip('0')
    if not digits and not rules.bare or len(counted) > rules.digits or not rules.behind(field[end:]):
        return None
    return rules.number(sign, digits or '0')


# ---- the texts ----


def by_grammar(rng, k):
    return null_text(rng)


def a_byte_off(rng, k):
    return nearly_real(rng, rng.choice([null_text(rng), rng.choice(NULLS)])).decode('latin-1')


def signed(rng, number):
    return '%d' % number if number < 0 else rng.choice(['', '', '+']) + '%d' % number


def edge_digits(rng, k):
    """17 to 21 digits, some of them zeros in front."""
    count = 17 + k % 5
    of = rng.randrange(10 ** rng.choice([1, 3, 5, 10, 18, 19]))
    digits = rng.choice([('%d' % of).zfill(count), '9' * count, '%d' % rng.randrange(10 ** (count - 1), 10 ** count)])
    return rng.choice(['', '', '+', '-']) + digits[-count:]


def edges(rng, k):
    """At an end of a range, signed or unsigned, and next to it."""
    return signed(rng, rng.choice([1, -1]) * 2 ** [7, 8, 15, 16, 31, 32, 63, 53][k % 8] + rng.randrange(-3, 4))


def wrapped(rng, k):
    """A number of a type and so many times the power of two that its bytes leave out."""
    power = 2 ** [8, 16, 32, 63, 64][k % 5]
    made = rng.randrange(-300, 300) + power * rng.choice([1, -1, 2, -3, rng.randrange(1, 2 ** 20)])
    return signed(rng, made if abs(made) < 10 ** 19 else made % power)


def zeros(rng, k):
    return rng.choice(['', '+', '-']) + '0' * (1 + k % 21)


def real_one(rng, k):
    return real_text(rng)


def other_value(rng, k):
    return rng.choice([text(of).decode('latin-1') for of in NO_NULLS])


# what each kind is, its share of a hundred, the text with a number
KINDS = [
    ('by the grammar', 30, by_grammar),
    ('with a byte off', 12, a_byte_off),
    ('17 to 21 digits', 14, edge_digits),
    ('ends of ranges', 12, edges),
    ('a power of two away', 10, wrapped),
    ('zeros', 4, zeros),
    ('real numbers', 6, real_one),
    ('something behind', 4, behind_it),
    ('something in front', 3, in_front),
    ('other values', 3, other_value),
    ('any bytes', 2, any_bytes),
]

# a text at a column of a letter, and the numbers that are stored there
Column = collections.namedtuple('Column', 'text letter stored')


def stored_number(letter, number):
    """What the column's bytes hold of a number."""
    bits = 8 * WIDTH[letter]
    number %= 2 ** bits
    return number if letter == 'B' or number < 2 ** (bits - 1) else number - 2 ** bits


def numbers_for(rng, of, letter):
    """The numbers stored beside a text."""
    found = re.match(' *([+-]*) *([0-9]*)', of)
    digits, half = found.group(2) or '0', 2 ** (8 * WIDTH[letter] - 1)
    number = int(digits) * (-1 if '-' in found.group(1) else 1)
    parts = [int(digits[:18]), int(digits[:19]), int(digits[-18:])]
    near = [number, number, number + 1, number - 1, -number, half, half - 1, -1, 0] + parts
    assert len(near) == ITEMS
    rng.shuffle(near)
    return [stored_number(letter, one) for one in near]


def columns_of(seed, count):
    """So many texts of all kinds in a random order, each a value field without the spaces at its end."""
    rng, made, counts = random.Random('nulls %d' % seed), [], {}
    assert sum(share for _, share, _ in KINDS) == 100
    for name, share, _ in KINDS:
        counts[name] = count * share // 100
    counts[KINDS[0][0]] += count - sum(counts.values())
    for name, _, one in KINDS:
        for k in range(counts[name]):
            of = one(rng, k)[:FIELD]
            made.append(of if rng.randrange(3) else spread(rng, of))
    rng.shuffle(made)
    letters = [rng.choice(INTEGERS) for _ in made]
    return [Column(of, letter, numbers_for(rng, of, letter)) for of, letter in zip(made, letters)], counts


# ---- tables of them ----


def table_of(columns):
    naxis1 = ITEMS * sum(WIDTH[one.letter] for one in columns)
    records = table(['%d%s' % (ITEMS, one.letter) for one in columns], naxis1)
    records += [keyword('TNULL%d' % n, one.text.encode('latin-1')) for n, one in enumerate(columns, 1)]
    return ended(records) + b''.join((number % 256 ** WIDTH[one.letter]).to_bytes(WIDTH[one.letter], 'big')
                                     for one in columns for number in one.stored)


def is_unset(one, stored, rules=RIGHT):
    return rules.match(one.letter, stored, number_of(one.text, rules))


def wanted(columns, rules=RIGHT):
    """The lines of the cells, or of the refusal."""
    bad = next((n for n, one in enumerate(columns, 1) if number_of(one.text, rules) is None), None)
    if bad:
        return ['refused 17 %d' % bad]
    return ['cell 0 %d %d %s' % (c, idx, 'U' if is_unset(one, stored, rules) else stored)
            for c, one in enumerate(columns) for idx, stored in enumerate(one.stored)]


# a run: the columns of a table, the lines of its cells or of the refusal
Run = collections.namedtuple('Run', 'columns said')


def runs_of(program, columns, folder):
    """Each table as it is, and again without the column of its first refused text, until it is read."""
    for at in range(0, len(columns), COLUMNS):
        left = columns[at:at + COLUMNS]
        while left:
            lines = printed(program, folder, table_of(left)).split('\n')[:-1]
            one = Run(left, [line for line in lines if not line.startswith(('table ', 'column ', 'end '))])
            yield one
            found = re.fullmatch('refused 17 ([0-9]+)', one.said[0]) if one.said else None
            if not found or not 1 <= int(found.group(1)) <= len(left):
                break
            n = int(found.group(1))
            left = left[:n - 1] + left[n:]


def difference(one, rules=RIGHT):
    """What is wanted and what was printed, the first lines that differ; None if all is the same."""
    lines = wanted(one.columns, rules)
    if lines == one.said:
        return None
    pairs = zip(lines + [''] * len(one.said), one.said + [''] * len(lines))
    return next(pair for pair in pairs if pair[0] != pair[1])


def tell(one, found):
    print('wanted %r\ngot    %r' % found)
    for word in found:
        place = re.match('refused 17 ([0-9]+)|cell 0 ([0-9]+) ', word)
        if place:
            n = int(place.group(1)) if place.group(1) else int(place.group(2)) + 1
            print('TNULL%d: %r' % (n, one.columns[n - 1]))


# ---- wrong rules ----


def limits(letter):
    """The lowest and the highest number of a letter."""
    half = 2 ** (8 * WIDTH[letter] - 1)
    return (0, 2 * half - 1) if letter == 'B' else (-half, half - 1)


def in_limits(letter, number):
    low, high = limits(letter)
    return min(max(number, low), high)


WRONG = [
    ('18 digits', RIGHT._replace(digits=18)),
    ('20 digits', RIGHT._replace(digits=20)),
    ('leading zeros do not count', RIGHT._replace(leading=False)),
    ('no plus', RIGHT._replace(signs='-')),
    ('no minus', RIGHT._replace(signs='+')),
    ('spaces behind a sign', RIGHT._replace(apart=True)),
    ('a tab is a space', RIGHT._replace(spaces=' \t')),
    ('no digit is needed', RIGHT._replace(bare=True)),
    ('anything may come behind', RIGHT._replace(behind=lambda rest: True)),
    ('nothing may come behind', RIGHT._replace(behind=lambda rest: rest == '')),
    ('a point may come behind', RIGHT._replace(behind=lambda rest: rest[:1] in ('', '/', '.'))),
    ('an exponent may come behind', RIGHT._replace(behind=lambda rest: rest[:1] in ('', '/', 'E', 'D'))),
    ('the minus is lost', RIGHT._replace(number=lambda sign, digits: int(digits))),
    ('minus zero is no number of the column', RIGHT._replace(
        number=lambda sign, digits: int(sign + digits) if int(digits) or sign != '-' else 2 ** 99)),
    ('only 18 digits are read', RIGHT._replace(number=lambda sign, digits: int(sign + digits[:18]))),
    ('octal behind a zero', RIGHT._replace(number=lambda sign, digits: int(
        sign + digits, 8 if re.fullmatch('0[0-7]+', digits) else 10))),
    ('modulo 2^64', RIGHT._replace(match=lambda letter, stored, number: stored == stored_number('K', number))),
    ('modulo 2^64 and 2^32', RIGHT._replace(
        match=lambda letter, stored, number: stored == stored_number('K' if letter == 'K' else 'J', number))),
    ('modulo 2^8 for B', RIGHT._replace(
        match=lambda letter, stored, number: stored == (number % 2 ** 8 if letter == 'B' else number))),
    ('modulo 2^16 for I', RIGHT._replace(
        match=lambda letter, stored, number: stored == (stored_number('I', number) if letter == 'I' else number))),
    ('the low bits alone', RIGHT._replace(
        match=lambda letter, stored, number: stored == stored_number(letter, number))),
    ('B has a sign', RIGHT._replace(
        match=lambda letter, stored, number: number == ((stored + 128) % 256 - 128 if letter == 'B' else stored))),
    ('I has no sign', RIGHT._replace(
        match=lambda letter, stored, number: number == (stored % 2 ** 16 if letter == 'I' else stored))),
    ('the nearest number of the column', RIGHT._replace(
        match=lambda letter, stored, number: stored == in_limits(letter, number))),
    ('the nearest number of 64 bits', RIGHT._replace(
        match=lambda letter, stored, number: stored == in_limits('K', number))),
    ('as doubles', RIGHT._replace(match=lambda letter, stored, number: float(stored) == float(number))),
    ('the lowest number of K is none', RIGHT._replace(
        match=lambda letter, stored, number: stored == number and number != -2 ** 63)),
    ('the highest number of K is none', RIGHT._replace(
        match=lambda letter, stored, number: stored == number and number != 2 ** 63 - 1)),
    ('0 is never unset', RIGHT._replace(match=lambda letter, stored, number: stored == number and stored != 0)),
    ('without regard to sign', RIGHT._replace(match=lambda letter, stored, number: abs(stored) == abs(number))),
    ('never unset', RIGHT._replace(match=lambda letter, stored, number: False)),
]


def by_next_column(one):
    """What would be printed if each column had the text of the one behind it."""
    texts = [column.text for column in one.columns]
    return wanted([column._replace(text=of) for column, of in zip(one.columns, texts[1:] + texts[:1])]) != one.said


def out_of_range_refused(one):
    """What would be printed if a number that its column does not hold were refused."""
    low_high = [limits(column.letter) for column in one.columns]
    bad = [n for n, (column, (low, high)) in enumerate(zip(one.columns, low_high), 1)
           if number_of(column.text) is None or not low <= number_of(column.text) <= high]
    return (['refused 17 %d' % bad[0]] if bad else wanted(one.columns)) != one.said


OTHERS = {'the text of the next column': by_next_column, 'out of range is refused': out_of_range_refused}


def control(runs):
    """Each wrong rule must differ from what was printed. The number of those that do not."""
    missed = 0
    for name, rules in WRONG:
        found = next(filter(None, (difference(one, rules) for one in runs)), None)
        missed += found is None
        print('not noticed: ' + name if found is None else 'noticed: %s: %r for %r' % (name, found[0], found[1]))
    for name, differs in OTHERS.items():
        found = any(differs(one) for one in runs)
        missed += not found
        print(('noticed: ' if found else 'not noticed: ') + name)
    print('%d wrong rules, %d not noticed' % (len(WRONG) + len(OTHERS), missed))
    return missed


# ---- running the program ----


def self_check(columns):
    """Two readers of the grammar agree on each text. The number of the texts that are numbers."""
    for of in [one.text for one in columns] + [text(one).decode('latin-1') for one in NULLS + NO_NULLS]:
        assert number_of(of) == null_of(of.encode('latin-1').ljust(FIELD)), repr(of)
    return sum(number_of(one.text) is not None for one in columns)


def check(program, seed, count, controlled):
    program = os.path.abspath(program)
    if not os.access(program, os.X_OK):
        sys.exit('no program at %s' % program)
    columns, counts = columns_of(seed, count)
    numbers = self_check(columns)
    runs, tables, unset, folder = [], 0, 0, tempfile.mkdtemp()
    for one in runs_of(program, columns, folder):
        tables += 1
        found = difference(one)
        if found:
            tell(one, found)
            print('%d tables, then one differs; its file is in %s' % (tables, folder))
            return 1
        unset += sum(line.endswith(' U') for line in one.said)
        runs += [one] if controlled else []
    os.remove(os.path.join(folder, 'table.fits'))
    os.rmdir(folder)
    print(', '.join('%s: %d' % of for of in counts.items()), file=sys.stderr)
    print('%d different texts, %d tables, %d unset items' % (len({one.text for one in columns}), tables, unset),
          file=sys.stderr)
    print('%d texts, %d of them numbers, 0 differ' % (count, numbers))
    return 1 if controlled and control(runs) else 0


USAGE = 'usage: tests/null_numbers.py check CELLS [--seed N] [--texts N] [--control]'


def main(words):
    settings, controlled = {'--seed': '0', '--texts': '%d' % TEXTS}, '--control' in words
    words = [word for word in words if word != '--control']
    while len(words) > 3 and words[-2] in settings:
        settings[words[-2]] = words[-1]
        words = words[:-2]
    if len(words) != 2 or words[0] != 'check' or not all(of.isdigit() for of in settings.values()):
        print(USAGE, file=sys.stderr)
        return 2
    return check(words[1], int(settings['--seed']), int(settings['--texts']), controlled)


if __name__ == '__main__':
    sys.exit(main(sys.argv[1:]))
