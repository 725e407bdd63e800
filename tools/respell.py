#!/usr/bin/env python3
"""Respells the definitions and lemmas of this repository as Rattle's library spells its own: words in snake case, types
and modules in upper camel case, an apostrophe for a prime.

usage: tools/respell.py [FOLDER]

FOLDER, the repository's top if it is not given, is rewritten in place: specs/, proofs/ and src/ of each crate, the edits
of must-fail/ and tests/edits, and the code spans of *.md. A name is one that a file of specs/ or proofs/ declares, so
functions of src/, what Rattle makes and what the library declares stay. A second run changes no crate. docs/PORT.md,
which lists old names, stays; another page that quotes one on purpose is put right by hand. A line that begins 'meets:'
names a file in which a new spelling stood already for something else: it is for a person to look at.
"""

import os
import re
import sys

# In these crates a lemma would be spelled as the definition that it is about, and in row a constructor as another's.
TAKEN = {
    "bintable": {"columns_of": "columns_of_lem", "column-name": "column_name_lem"},
    "cell": {"is-nan": "is_nan_lem"},
    "example": {"weight-by": "weight_by_lem"},
    "exports": {"cell-reads": "cell_reads_lem", "row-reads": "row_reads_lem", "table-reads": "table_reads_lem"},
    "output": {
        "answer-next": "answer_next_lem",
        "open-lines": "open_lines_lem",
        "row_next": "row_next_lem",
        "written-to": "written_to_lem",
    },
    "row": {"next-chosen": "next_chosen_lem", "next-from": "next_from_lem", "read-row": "read_row_by_value"},
    "steps": {"choose-by": "choose_by_lem", "row-by": "row_by_lem", "seek-by": "seek_by_lem"},
    "table": {"choice-ok": "choice_in_range", "next-chosen": "next_chosen_lem", "next-from": "next_from_lem"},
    "tform": {"is-unknown": "is_unknown_lem"},
    "walk": {"no-column": "no_column_lem", "no-cursor": "no_cursor_lem"},
}

WORD = re.compile(r"[^\s(){}.;,@\"«»]+")
NAME = r"[^\s(){}.;,@\"«»:]+"
DECLARED = re.compile(
    rf"^ *(?:(?:abbrev|unfoldable|opaque|pub|record|data) +)*({NAME})(?: \{{[^{{}}\n]*\}}| \([^()\n]*\))* :(?= |$)(.*)", re.M
)
COMMENT = re.compile(r"--[^\n]*")
# A word of prose, and a span of code in it.
PLAIN = re.compile(r"[A-Za-z0-9_'′-]+")
SPAN = re.compile(r"`[^`\n]+`")
FENCED = re.compile(r"^```.*?^```", re.S | re.M)
STRING = re.compile(r'b?"(?:\\.|[^"\\])*"')
ALIAS = re.compile(r"^use \S+ as (\S+)$", re.M)
USED = re.compile(r"^use ([^\s{]+)\.\{([^}]*)\}", re.M)


def respelled(name):
    """The spelling of the library; a name that begins with a capital is a type's or a module's."""
    name = name.replace("′", "'").replace("-", "_")
    if name[:1].isupper():
        return name
    return re.sub(r"(?<=[a-z0-9])[A-Z]+", lambda m: "_" + m[0].lower(), name)


def files(top, *endings):
    for folder, folders, names in os.walk(top):
        folders[:] = sorted(f for f in folders if f not in ("out", ".git", "target"))
        for name in sorted(names):
            if name.endswith(endings):
                yield os.path.join(folder, name)


def read(path):
    with open(path, encoding="utf-8") as file:
        return file.read()


def declared(top):
    """The names that files of specs/ and proofs/ declare, or give a module, but for the goals, whose names Rattle makes."""
    names = set()
    for path in files(os.path.join(top, "crates"), ".antt"):
        for name, after in DECLARED.findall(COMMENT.sub("", read(path))):
            if not after.lstrip().startswith("goal."):
                names.add(name)
        names.update(ALIAS.findall(read(path)))
    return names


def library(text):
    """The words that a file has from the toolchain's library."""
    words = set()
    for module, items in USED.findall(text):
        if not module.startswith("Rattle.") or module.startswith("Rattle.std."):
            words.update(re.split(r"[\s,]+", items))
    return words


def turned(text, table):
    return WORD.sub(lambda m: table.get(m[0], m[0]), text)


def prose(text, table):
    """A comment or a page: names in code spans, and elsewhere those that no English word is like."""
    def span(m):
        return PLAIN.sub(lambda n: table.get(n[0], n[0]), m[0])
    return PLAIN.sub(lambda m: table.get(m[0], m[0]) if "-" not in m[0] else m[0], SPAN.sub(span, text))


def antt(text, table):
    table = {old: new for old, new in table.items() if old not in library(text)}
    parts, at = [], 0
    for m in COMMENT.finditer(text):
        parts += [turned(text[at : m.start()], table), prose(m[0], table)]
        at = m.end()
    return "".join(parts) + turned(text[at:], table)


def rt(text, table):
    """Code has no names in camel case, so a clause need not be told from it; a string stays."""
    parts, at = [], 0
    for m in STRING.finditer(text):
        parts += [prose(text[at : m.start()], table), m[0]]
        at = m.end()
    return "".join(parts) + prose(text[at:], table)


def page(text, table):
    def code(m):
        return PLAIN.sub(lambda n: table.get(n[0], n[0]), m[0])
    return FENCED.sub(code, SPAN.sub(code, text))


def met(text, table):
    """The spellings that stand for more than one word of a file; a word behind a dot is a field or has its module in front."""
    spellings = {}
    for word in set(re.findall(rf"(?<!\.){WORD.pattern}", COMMENT.sub("", text))):
        spellings.setdefault(table.get(word, word), []).append(word)
    return sorted((new, sorted(olds)) for new, olds in spellings.items() if len(olds) > 1)


def of_file(path, table, names):
    """The table for a file: that of its crate is laid over it in proofs/ and specs/. A page may have the old spelling of a
    name that was respelled before."""
    parts = path.split(os.sep)
    if path.endswith(".md"):
        return {**{name.replace("_", "-"): name for name in names if "_" in name}, **table}
    if not path.endswith(".antt") or parts[0] != "crates":
        return table
    taken = TAKEN.get(parts[1], {})
    # One that has no dash is met by another only as long as that is still to be respelled.
    return {**table, **{old: new for old, new in taken.items() if "-" in old or old in table.values()}}


def main():
    top = sys.argv[1] if len(sys.argv) > 1 else os.path.dirname(os.path.dirname(os.path.abspath(__file__)))
    names = declared(top)
    table = {name: respelled(name) for name in names}
    table = {old: new for old, new in table.items() if old != new}
    kinds = [(".antt", antt), (".rt", rt), (".edit", rt), (".md", page)]
    changed = 0
    for ending, turn in kinds:
        for path in files(top, ending):
            if path.endswith("PORT.md"):
                continue
            before = read(path)
            own = of_file(os.path.relpath(path, top), table, set(table.values()) | names)
            after = turn(before, own)
            if after == before:
                continue
            if ending == ".antt":
                for new, olds in met(before, own):
                    print(f"meets: {os.path.relpath(path, top)}: {new} for {', '.join(olds)}")
            with open(path, "w", encoding="utf-8") as file:
                file.write(after)
            changed += 1
    print(f"{len(table)} names respelled, {changed} files changed")


if __name__ == "__main__":
    main()
