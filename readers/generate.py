"""Random tables that are well formed by section 7.3 of the FITS standard, as whole extensions of at most 65,536 bytes:
all forms, X and count 0 too, every L byte, strings that end early, arrays that are empty, shared or far apart, gaps
before and in the heap, and names that are missing, empty or the same. P and Q have count 1: count 0, which the standard
allows as well, is left out, since astropy reads a descriptor there; cases.py has it."""
import random
import struct

from header_cases import record
from layout_cases import WIDTH, doubled, table
from listing import MOST, column_records, fixed, required, whole
from names import one_flipped

LETTERS = 'LXBIJKAEDCM'
PRINTED = bytes(range(32, 127))
NAMES = ['POS', 'WT', 'pos', 'G/M2', "IT''S", 'A B', 'x_1', 'FLUX', "''", '1', 'TIME', 'END', '=', "a''/''b"]
# The least and greatest numbers, the infinities, NaNs of both kinds, and the smallest float.
SPECIAL = ['00', 'ff', '80', '7f', '0000', 'ffff', '8000', '7fff', '00000000', 'ffffffff', '80000000', '7fffffff',
           '7f800000', 'ff800000', '7f800001', 'ffc12345', '00000001', '0000000000000000', '8000000000000000',
           'ffffffffffffffff', '7fffffffffffffff', '7ff0000000000000', 'fff0000000000000', '7ff0000000000001',
           'fff8123456789abc', '0000000000000001']
# For names: letters in both cases, characters 32 apart that are no letters, and some more.
ALIKE = b"AAaaBbZz@`[{^~12' "
FLOAT_PART = {'E': 4, 'C': 4, 'D': 8, 'M': 8}

# columns, rows, count of a field, items of an array
SIZES = [(5, 8, 6, 8), (5, 8, 20, 40), (64, 3, 4, 4), (3, 300, 2, 3), (3, 4, 400, 600), (12, 30, 5, 5)]


def numbers(rng, letter, items):
    """Items of a number's form: random bytes, with special ones among them."""
    part = FLOAT_PART.get(letter, WIDTH[letter])
    parts = items * WIDTH[letter] // part
    made = [rng.randbytes(part) for _ in range(parts)]
    choices = [bytes.fromhex(digits) for digits in SPECIAL if len(digits) == 2 * part]
    for _ in range(rng.randrange(3) if parts else 0):
        made[rng.randrange(parts)] = rng.choice(choices)
    return b''.join(made)


def characters(rng, items):
    """Text; text that ends early at a byte 0 or in spaces; or, now and then, any bytes."""
    if rng.randrange(8) == 0:
        return rng.randbytes(items)
    length = rng.choice([items, items, rng.randrange(items + 1)])
    made = bytes(rng.choice(PRINTED) for _ in range(length))
    if rng.randrange(2):
        return made.ljust(items)
    rest = b'\0' + bytes(rng.choice(PRINTED) for _ in range(items)) if rng.randrange(3) == 0 else b''
    return (made + rest)[:items].ljust(items, b'\0')


def bits(rng, count):
    """The bits behind the last are 0, as the standard has them, but for a few."""
    made = bytearray(rng.randbytes((count + 7) // 8))
    if count % 8 and rng.randrange(6):
        made[-1] &= 0xFF00 >> count % 8
    return bytes(made)


def items_of(rng, letter, count):
    """The bytes of so many items."""
    if letter == 'L':
        return bytes(rng.choice(b'TTTFFF\0' + rng.randbytes(1)) for _ in range(count))
    if letter == 'A':
        return characters(rng, count)
    if letter == 'X':
        return bits(rng, count)
    return numbers(rng, letter, count)


class Heap:
    """Arrays one behind the other, with gaps now and then; some arrays name the bytes of one before."""

    def __init__(self, rng):
        self.rng, self.content, self.arrays = rng, b'', {}

    def add(self, letter, longest):
        """The count and the offset of an array."""
        rng = self.rng
        before = self.arrays.setdefault(letter, [])
        if rng.randrange(5) == 0:
            # Count 0 names no byte, so its offset may be any.
            return 0, rng.choice([0, len(self.content), rng.randrange(2 ** 32)])
        if before and rng.randrange(8) == 0:
            return rng.choice(before)
        if rng.randrange(6) == 0:
            self.content += rng.randbytes(rng.randrange(12))
        count = 1 + rng.randrange(longest)
        before.append((count, len(self.content)))
        self.content += items_of(rng, letter, count)
        return before[-1]


def random_form(rng, longest):
    """(letters, count, the form as it is written)."""
    array, letter = rng.choice(['', '', 'P', 'Q']), rng.choice(LETTERS)
    count = 1
    if not array:
        count = rng.choice([0, 1, 1, 1, 1 + rng.randrange(longest), 1 + rng.randrange(longest), 8, 9])
    digits = rng.choice(['%d', '%d', '%03d']) % count
    if count == 1 and rng.randrange(3) == 0:
        digits = ''
    rest = '(%d)' % longest if array and rng.randrange(2) else ''
    return array + letter, count, digits + array + letter + rest


def field(rng, heap, letters, count, longest):
    if letters[0] in 'PQ':
        return struct.pack('>II' if letters[0] == 'P' else '>QQ', *heap.add(letters[1], longest))
    return items_of(rng, letters, count)


def other_records(rng):
    return [record('COMMENT  a table'), record(''), fixed('EXTNAME', 'SCAN'), record('HISTORY  made'),
            fixed('TUNIT1', 'g/m2'), fixed('EXTVER', 3)][:rng.randrange(7)]


def try_table(rng):
    columns, rows, longest, array = rng.choice(SIZES)
    forms = [random_form(rng, longest) for _ in range(1 + rng.randrange(columns))]
    rows = rng.choice([0, 1, 1 + rng.randrange(rows), 1 + rng.randrange(rows), rows])
    names = [rng.choice([None, '', rng.choice(NAMES)]) if rng.randrange(12) == 0 else 'C%d' % n
             for n in range(len(forms))]
    heap = Heap(rng)
    main = b''.join(field(rng, heap, letters, count, array)
                    for _ in range(rows) for letters, count, _ in forms)
    width = len(main) // rows if rows else sum(
        len(field(rng, Heap(rng), letters, count, array)) for letters, count, _ in forms)
    gap = rng.randbytes(rng.choice([0, 0, 1, 8, rng.randrange(100)]))
    spare = rng.randbytes(rng.choice([0, 0, 5]))
    made = required(width, rows, len(gap + heap.content + spare), len(forms)) + other_records(rng)
    if gap or rng.randrange(4) == 0:
        made.append(fixed('THEAP', len(main) + len(gap)))
    return whole(made + column_records([form for *_, form in forms], names), main + gap + heap.content + spare)


def tables(seed, count):
    rng = random.Random(seed)
    made = []
    while len(made) < count:
        table = try_table(rng)
        if len(table) <= MOST:
            made.append(table)
    return made


def random_name(rng, others):
    """A name, often that of another column or nearly so; None for none."""
    made = bytes(rng.choice(ALIKE) for _ in range(1 + rng.randrange(6)))
    name = rng.choice([None, b''] + 4 * [made] + 3 * [other for other in others if other])
    if name and rng.randrange(3):
        name = rng.choice([name.swapcase(), one_flipped(rng, name), name[:-1]])
    return name


def named_table(names):
    """One row of bytes."""
    written = [name if name is None else doubled(name) for name in names]
    return whole(table(['1B'] * len(names), len(names), names=written), bytes(range(len(names))))


def named_tables(seed, count):
    """Small tables with names that are alike but for the case, or but for one byte that is no letter."""
    rng, made = random.Random(seed), []
    for _ in range(count):
        names = []
        for _ in range(1 + rng.randrange(8)):
            names.append(random_name(rng, names))
        made.append(named_table(names))
    return made
