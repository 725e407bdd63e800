#!/usr/bin/env python3
"""Packs the fixed list of cases of the program `vectors`.

From the repository's root:

    python3 tests/vectors.py make FOLDER [COMMAND]   crates/vectors/data/vectors.bin, crates/vectors/stdout, crates/vectors/README.md
    python3 tests/vectors.py unpack FOLDER           the cases of the list, each in a folder of its own below FOLDER

A folder of cases has a folder for each: table.fits, a table as `replay` reads it; steps.txt, the steps; expected.txt, what
is to be printed of them. They are taken in the order of their names, as long as the list stays below a million bytes.
COMMAND is the text of the command that made the folder, for README.md.

In the list a case is three lengths of four bytes, high byte first, and then so many bytes of the table, of the steps and
of the text. One case in the middle is wrong on purpose: one digit of one cell is another in its text.
"""
import hashlib
import os
import struct
import sys

sys.dont_write_bytecode = True

CRATE = os.path.join('crates', 'vectors')
LIST = os.path.join(CRATE, 'data', 'vectors.bin')
FILES = ('table.fits', 'steps.txt', 'expected.txt')
MOST_LIST = 1_000_000
MOST_FILE = 65_536

README = """# The fixed list of `vectors`

`data/vectors.bin` has {cases} cases, {size} bytes, SHA-256 {digest}. Each is a table, a list of steps and the text that `replay` is to print of them (docs/FORMAT.md, section 17). The texts are answers of the Rust, in the words of `replay`. The form of the file stands at the top of `crates/cases/src/count.rt`.

It was made by

    {command}
    python3 tests/vectors.py make FOLDER

`vectors` runs each case by `cases::report_cases` and prints one line: how many cases there are, how many differ, and the first that does.

Case {number} is wrong on purpose, so that the program could not print its line blindly: line {line} of its text is

    {wrong}

where the Rust's answer is

    {right}

A list whose last case is cut would print `; case N is cut` behind that. `python3 tests/vectors.py unpack FOLDER` writes the cases out again, the wrong one as it stands.
"""


def fail(words):
    sys.exit('vectors.py: ' + words)


def read(path):
    with open(path, 'rb') as file:
        return file.read()


def write(path, data):
    os.makedirs(os.path.dirname(path), exist_ok=True)
    with open(path, 'wb') as file:
        file.write(data)


def packed(case):
    return struct.pack('>III', *map(len, case)) + b''.join(case)


def unpacked(data):
    cases = []
    at = 0
    while at < len(data):
        sizes = struct.unpack_from('>III', data, at)
        at += 12
        case = []
        for size in sizes:
            case.append(data[at:at + size])
            at += size
        cases.append(tuple(case))
    return cases


def cases_of(folder):
    """The cases of a folder, as many as the list takes, and how many are left out."""
    names = sorted(name for name in os.listdir(folder) if os.path.isdir(os.path.join(folder, name)))
    cases = []
    size = 0
    for name in names:
        case = tuple(read(os.path.join(folder, name, file)) for file in FILES)
        if max(map(len, case[:2])) > MOST_FILE:
            fail('case %s has a file above %d bytes' % (name, MOST_FILE))
        size += len(packed(case))
        if size > MOST_LIST:
            break
        cases.append(case)
    return cases, len(names) - len(cases)


def wrong_line(text):
    """The number of a cell line in the middle of a text whose value ends in a digit, and the line with another digit."""
    lines = text.split(b'\n')
    found = [i for i, line in enumerate(lines) if line.startswith(b'cell ') and line[-1:].isdigit()]
    if not found:
        return None
    i = found[len(found) // 2]
    digit = b'%d' % ((int(lines[i][-1:]) + 1) % 10)
    return i, lines[i][:-1] + digit


def make(folder, command):
    cases, left = cases_of(folder)
    for k in range(len(cases) // 2, len(cases)):
        table, steps, text = cases[k]
        changed = wrong_line(text)
        if changed:
            break
    else:
        fail('no case with a cell line from the middle on')
    i, wrong = changed
    lines = text.split(b'\n')
    right = lines[i]
    lines[i] = wrong
    cases[k] = (table, steps, b'\n'.join(lines))
    data = b''.join(map(packed, cases))
    write(LIST, data)
    write(os.path.join(CRATE, 'stdout'), b'%d cases, 1 differs: case %d\n' % (len(cases), k + 1))
    write(os.path.join(CRATE, 'README.md'), README.format(
        cases=len(cases), size='{:,}'.format(len(data)), digest=hashlib.sha256(data).hexdigest(), command=command,
        number=k + 1, line=i + 1, wrong=wrong.decode(), right=right.decode()).encode())
    print('%d cases, %d bytes, %d left out; case %d is wrong in line %d' % (len(cases), len(data), left, k + 1, i + 1), file=sys.stderr)


def unpack(folder):
    cases = unpacked(read(LIST))
    for k, case in enumerate(cases):
        for name, data in zip(FILES, case):
            write(os.path.join(folder, '%03d' % (k + 1), name), data)


def main():
    words = sys.argv[1:]
    if len(words) in (2, 3) and words[0] == 'make':
        make(words[1], words[2] if len(words) == 3 else 'the command of oracle/README.md that writes a FOLDER of cases')
    elif len(words) == 2 and words[0] == 'unpack':
        unpack(words[1])
    else:
        sys.exit(__doc__)


if __name__ == '__main__':
    main()
