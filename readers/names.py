"""Finding a column by its name: names that are sought, what the port says of them by `layout_cases`, and what of the
other readers' answers is explained. An answer is `find`, the number of the name sought, and the column or `none`."""
import collections
import os
import re
import subprocess

from header_cases import LIMIT
from layout_cases import Case, doubled, flipped, in_capitals, layout_of, noted_name, packed, single
from listing import parted

LAYOUT_CASES = os.path.join(os.path.dirname(os.path.dirname(os.path.abspath(__file__))),
                            'crates', 'layout_cases', 'out', 'layout_cases')


def names_of(table):
    """The names of the columns, None for a missing one."""
    header, area = parted(table)
    layout = layout_of(header, len(area))
    noted = [noted_name(layout, header, i) for i in range(len(layout.columns))]
    return [None if name is None else single(name) for name in noted]


def one_flipped(rng, name):
    """One byte from 64 on with bit 5 the other way round: a letter in the other case, or, as @ for `, another one."""
    places = [at for at, byte in enumerate(name) if byte >= 64]
    return flipped(name, rng.choice(places)) if places else name


def sought_in(rng, table):
    """The empty name, and names that are those of the columns or nearly so: fewer than the 256 of `layout_cases`."""
    named, made = [name for name in names_of(table) if name], [b'']
    for name in named:
        at = rng.randrange(len(name))
        made += rng.sample([
            name, name.swapcase(), one_flipped(rng, name), one_flipped(rng, name), name[:at], doubled(name),
            name + b' ', name[:at] + b'*', name[:at] + rng.choice([b'?', b'#']) + name[at + 1:],
            b'%d' % (1 + rng.randrange(9))], min(10, 250 // len(named)))
    return made


def found_by_port(tables, sought, work):
    """The answers for each table."""
    cases = [packed(Case('', None, header, len(area), 0, names))
             for (header, area), names in zip(map(parted, tables), sought)]
    said = []
    while cases:
        content = b''
        while cases and len(content + cases[0]) < LIMIT:
            content += cases.pop(0)
        with open(os.path.join(work, 'cases.bin'), 'wb') as file:
            file.write(content)
        lines = subprocess.run([LAYOUT_CASES], cwd=work, capture_output=True, check=True).stdout.decode('ascii')
        parts = re.split('case .*\n', lines)[1:]
        said += [[line.replace(' full', '') for line in re.findall('find [0-9]+ full .*', part)] for part in parts]
    assert len(said) == len(tables)
    return said


def columns_of(names, sought):
    """The columns of that name, by the standard."""
    return [n for n, name in enumerate(names) if name is not None and in_capitals(name) == in_capitals(sought)]


def answer(columns):
    return '%d' % columns[0] if columns else 'none'


def by_rule(reader, names, sought):
    """The reader's answer by its own rule. astropy takes the very name first, and one in either case if it is the only
    one; cfitsio a name in either case, then by wildcards, then a number, and status 237 says that there are more."""
    kept = sought.rstrip(b' ')
    found = columns_of(names, kept)
    if reader == 'astropy':
        return answer([names.index(kept)]) if kept in names else 'ambiguous' if found[1:] else answer(found)
    signs = {b'*': b'.*', b'?': b'.', b'#': b'(#|[0-9]+(?![0-9]))'}
    pattern = b''.join(signs.get(sign, re.escape(sign)) for sign in re.findall(b'.', in_capitals(kept)))
    found = found or [n for n, name in enumerate(names) if re.fullmatch(pattern, in_capitals(name))]
    number = re.match(rb' *\+?([0-9]+)( |$)', kept)
    if not found and number and 0 < int(number.group(1)) <= len(names):
        found = [int(number.group(1)) - 1]
    return answer(found) + (' 237' if found[1:] else '')


def explanation(reader, names, theirs, sought, ours, other):
    """The difference of two answers that docs/DIFFERENCES.md explains, or None. The names are those of the table and
    those that the reader has."""
    right = columns_of(names, sought)
    if ours != answer(right) or other != by_rule(reader, theirs, sought):
        return None
    if not sought.rstrip(b' ') and None in names:
        return 'the empty name, and there is a column without a name'
    if right[1:]:
        why = {'ambiguous': 'an error', ours + ' 237': 'with status 237'}.get(other, 'the one in its case')
        return 'a name of more than one column, ' + why
    if sought.endswith(b' '):
        return 'a name with spaces at the end, which are dropped'
    if reader == 'astropy':
        return 'a name that it has otherwise'
    return 'a name with a wildcard' if re.search(rb'[*?#]', sought) else "a number, which is a column's"


def difference(reader, table, sought, ours, lines):
    """As that of compare.py. The lines are all that the reader printed of the table."""
    names, met = names_of(table), collections.Counter()
    theirs = [line.split(' ', 6)[6].encode('latin-1') for line in lines if line.startswith('column ')]
    theirs = [b'' if name == b'-' else single(name) for name in theirs]
    found = [line for line in lines if line.startswith('find ')]
    if not len(ours) == len(found) == len(sought):
        return ('%d answers' % len(ours), '%d answers' % len(found)), met
    for name, one, other in zip(sought, ours, found):
        if one != other:
            why = explanation(reader, names, theirs, name, one.split(' ', 2)[2], other.split(' ', 2)[2])
            if why is None:
                return ('%s of %r' % (one, name), other), met
            met['%s: sought, %s' % (reader, why)] += 1
    return None, met
