#!/usr/bin/env python3
"""Lists, old beside new, the public signatures, clauses, types, definitions and theorems that the design pass changed.

usage: python3 tools/design_changes.py OLD_FOLDER [NEW_FOLDER] [--check]

OLD_FOLDER is a checkout of the commit at which the pass began, NEW_FOLDER one of today; this one where it is not
given. Markdown goes to standard output: `- ` begins what was, `+ ` what is. What differs by RULES alone is told apart
from the rest. What states the promise of something that went stands in design_went.txt beside this file, by hand.

--check prints, in place of the list, what a person has to look at: names that went and have no line in that file,
lines of it that no name needs, functions that another crate can call and that have a `requires` or are not in
docs/CALLS.md.
"""

import collections
import difflib
import os
import re
import sys
import textwrap

# What was and what is, as it is shown, and what was as a regular expression with what stands in its place; `~` is an
# argument, a word or what brackets hold. They are applied from top to bottom to definitions and statements.
RULES = [
    ("Found -> Option ℕ", r"\bFound\b", "Option ℕ"),
    ("Written -> Option ℕ", r"\bWritten\b", "Option ℕ"),
    ("At x -> Some x", r"\bAt ~", r"Some \1"),
    ("To x -> Some x", r"\b(?:G\.)?To ~", r"Some \1"),
    ("Nothing, NoRoom, Over -> None", r"\b(?:Nothing|NoRoom|G\.Over)\b", "None"),
    ("Check -> Result Unit Refusal", r"\bCheck\b", "Result Unit Refusal"),
    ("Value -> Option Value", r"(?<!Option )\bValue\b(?!\.)", "Option Value"),
    ("Integer z -> Some (Integer z)", r"(?<!Some \()\bInteger ~", r"(Some (Integer \1))"),
    ("String a n -> Some (String a n)", r"(?<!Some \()\b((?:Val\.)?String) ~ ~", r"(Some (\1 \2 \3))"),
    ("Name -> Option Name", r"(?<!Option )\bName\b(?!\.)", "Option Name"),
    ("Stretch a n -> Some { start = a; len = n }", r"\bStretch ~ ~", r"Some (record { start = \1; len = \2 })"),
    ("TForm -> Option TForm", r"(?<!Option )\bTForm\b(?!\.)", "Option TForm"),
    ("Valid f k -> Some { form = f; count = k }", r"\b(?:T\.)?Valid ~ ~", r"Some (record { form = \1; count = \2 })"),
    ("Invalid, Missing, Unknown -> None", r"\b(?:\w+\.)?(?:Invalid|Missing|Unknown)\b", "None"),
    ("Element -> Option VariableArrayTy", r"\bElement\b", "Option VariableArrayTy"),
    ("Kind -> Option TFormType", r"(?<!Field)\bKind\b", "Option TFormType"),
    ("Is x -> Some x", r"\b(?:El\.)?Is ~", r"Some \1"),
    ("Command -> Option Command", r"(?<!Option )\bCommand\b(?!\.)", "Option Command"),
    ("C.Row n -> Some (C.Row n), and so on", r"(?<!Some \()\b(C\.(?:Row|Seek|Heap)) ~", r"(Some (\1 \2))"),
    ("C.Cell -> Some C.Cell, and so on", r"\b(C\.(?:ChooseAll|Choose|Cell))\b", r"(Some \1)"),
    ("C.Bad -> None", r"\bC\.Bad\b", "None"),
    ("Opened -> Result TableData Refusal", r"\bOpened\b", "Result TableData Refusal"),
    ("the walk's Result -> StepResult", r"(?<![\w.])Result\b(?! (?:Unit|BinTable|TableData|ℕ|A|\())", "StepResult"),
]

# Pages that say what was, so that a name in them is no promise; and programs whose functions promise nothing of what
# they print.
LISTS = {"docs/DESIGN-PASS.md", "docs/PORT.md"}
PROGRAMS = ("header_cases", "layout_cases", "table_cases")
WIDTH = 100
# In design_went.txt, beside a name that went by the pass and stands again.
BACK = "came back after the look"

# Something that a crate declares: its file, the name by which it is found again, its lines, whether it is public.
Item = collections.namedtuple("Item", "crate file name lines public")


def read(path):
    with open(path, encoding="utf-8") as file:
        return file.read()


def files(top, *endings):
    for folder, folders, names in os.walk(top):
        folders[:] = sorted(f for f in folders if f not in ("out", ".git", "target"))
        for name in sorted(names):
            if name.endswith(endings):
                yield os.path.join(folder, name)


def squeezed(text):
    """One space between words, none inside of brackets, no comma before one that closes."""
    text = re.sub(r"\s+", " ", text).strip()
    text = re.sub(r"(?<=[(\[]) | (?=[)\]])", "", text)
    return re.sub(r",(?= ?[)\]}])", "", text)


def closing(text, at):
    """The place after the bracket that closes the one at `at`."""
    depth = 0
    for i in range(at, len(text)):
        depth += (text[i] in "([{") - (text[i] in ")]}")
        if depth == 0:
            return i + 1
    return len(text)


def ended(text, at):
    """The place after the semicolon that ends an item."""
    while text[at] != ";":
        at = closing(text, at) if text[at] in "([{" else at + 1
    return at + 1


# ---- what the code declares


def head(text, at):
    """From behind a function's name: the rest of its signature, and its clauses."""
    clauses, end, sign = [], at, None
    while True:
        found = re.compile(r"\b(requires|ensures)\b([^{;]*)\{|[{;(\[]").search(text, end)
        if not found or found[0] in "{;":
            return sign or squeezed(text[at : found.start() if found else len(text)]), clauses
        if found[1]:
            sign = sign or squeezed(text[at : found.start()])
            end = closing(text, found.end() - 1)
            label = " ".join((found[1] + " " + found[2]).split())
            clauses.append(label + " { " + squeezed(text[found.end() : end - 1]) + " }")
        else:
            end = closing(text, found.start())


def blocks(text):
    """The impls and traits of a file: what stands before the bracket, and from where to where."""
    for m in re.finditer(r"^((?:pub )?(?:impl|trait)\b[^{;]*)\{", text, re.M):
        yield squeezed(m[1]), m.end(), closing(text, m.end() - 1)


def own_type(block):
    """The type that an impl is of, and whether the impl is of a trait."""
    block = re.sub(r"^impl\s*<(?:[^<>]|<[^<>]*>)*>", "impl", block)
    trait, _, kind = block[len("impl") :].rpartition(" for ")
    return re.match(r"\w*", kind.strip())[0], bool(trait)


class Crate:
    """The functions, types, constants and ghost items of a crate's code."""

    def __init__(self, top, crate):
        self.crate = crate
        self.functions, self.types, self.ghosts = [], [], []
        src = os.path.join(top, "crates", crate, "src")
        texts = {os.path.relpath(p, src): re.sub(r"//[^\n]*", "", read(p)) for p in files(src, ".rt")}
        lib = texts.get("lib.rt", "")
        self.modules = {m + ".rt" for m in re.findall(r"^pub mod (\w+);", lib, re.M)} | {"lib.rt"}
        self.used = set()
        for module, names in re.findall(r"^pub use (\w+)::(\w+|\{[^}]*\});", lib, re.M):
            self.used.update((module + ".rt", name) for name in re.findall(r"\w+", names))
        for file, text in texts.items():
            self.read_types(file, text)
            self.read_laws(file, text)
        exported = {t.name.split("::")[-1]: t.name for t in self.types if t.public}
        for file, text in texts.items():
            self.read_functions(file, text, exported)

    def path(self, file, name):
        """The name of something of a file, and whether another crate can reach it."""
        if (file, name) in self.used:
            return f"{self.crate}::{name}", True
        if file in ("lib.rt", "main.rt"):
            return f"{self.crate}::{name}", file in self.modules
        return f"{self.crate}::{file[: -len('.rt')].replace(os.sep, '::')}::{name}", file in self.modules

    def read_types(self, file, text):
        kinds = r"^((?:#\[[^\n]*\]\n)*)(pub )?((?:struct|enum|trait|type|const) (\w+)[^{;=(]*)([{;=(])"
        for m in re.finditer(kinds, text, re.M):
            end = ended(text, m.start(5)) if m[5] in ";=" else closing(text, m.start(5))
            body = "" if m[3].startswith("trait") else text[m.start(5) : end].rstrip(";")
            derives = " ".join(re.findall(r"#\[derive\([^)]*\)\]", m[1]))
            path, reached = self.path(file, m[4])
            public = bool(m[2]) and reached
            for g in re.finditer(r"\bghost (?!use\b)(\w+)[^{;]*?\{", body):
                fact = squeezed(body[g.end() : closing(body, g.end() - 1) - 1])
                self.ghosts.append(Item(self.crate, file, f"{path}: ghost {g[1]}", [fact], public))
            line = squeezed(" ".join([derives, m[2] or "", m[3], body]))
            self.types.append(Item(self.crate, file, path, [line], public))

    def read_laws(self, file, text):
        for block, start, end in blocks(text):
            for g in re.finditer(r"\bghost (?!use\b)(\w+) ?[=:] ?\{", text[start:end]):
                at = start + g.end() - 1
                fact = squeezed(text[at + 1 : closing(text, at) - 1])
                self.ghosts.append(Item(self.crate, file, f"{self.crate}: {block}: ghost {g[1]}", [fact], True))

    def read_functions(self, file, text, exported):
        inside = list(blocks(text))
        for m in re.finditer(r"^ *(pub(?:\(\w+\))? )?(?:const |unsafe |extern \"C\" )*fn (\w+)", text, re.M):
            sign, clauses = head(text, m.end())
            around = [block for block, start, end in inside if start <= m.start() < end]
            path, public = self.path(file, m[2])
            public = public and m[1] == "pub "
            if around and around[0].startswith("impl"):
                kind, of_trait = own_type(around[0])
                public = (m[1] == "pub " or of_trait) and kind in exported
                owner = exported.get(kind, f"{self.crate}::{kind}")
                path = f"{self.crate}: {around[0]}: {m[2]}" if of_trait else f"{owner}::{m[2]}"
            elif around:
                public = around[0].startswith("pub ")
                path = f"{self.crate}: {around[0].replace('pub ', '')}: {m[2]}"
            self.functions.append(Item(self.crate, file, path, ["fn " + m[2] + sign, *clauses], public))


# ---- what specs/ and proofs/ declare


def brackets(deep):
    """A regular expression for round brackets that have `deep` more in them."""
    return r"\([^()]*(?:" + brackets(deep - 1) + r"[^()]*)*\)" if deep else r"\([^()]*\)"


ARGUMENT = "(" + brackets(6) + r"|[^\s()→=≡]+)"
DECLARED = re.compile(
    r"^( *)(?:(?:abbrev|opaque|unfoldable|pub) )*(?:record |data )?([^\s:(){},.=|]+)"
    r"(?: (?:\{[^{}]*\}|" + brackets(4) + r"))* :(?= |$)"
)
DEFINES = re.compile(r"(?:pub )?(?:abbrev|unfoldable|record|data)\b")
MODULE = re.compile(r"^( *)(?:pub )?module _ (.*)$")
ENDS = re.compile(r"(?:use|pub use|mod|pub mod|module|pub module|open|infix\w*)\b")
WORD = re.compile(r"[^\s(){}.;,:@]+")


def joined(text):
    """The lines of a file without comments. One of `unfoldable pub` alone is put before the next, and the lines of a
    module's head are made one."""
    before = ""
    for line in re.sub(r" *--[^\n]*", "", text).split("\n"):
        line = before + (line.strip() if before else line.rstrip())
        before = ""
        alone = re.fullmatch(r" *(?:(?:abbrev|opaque|unfoldable|pub) ?)+", line)
        if alone or (MODULE.match(line) and not line.endswith(" where")):
            before = line.rstrip() + " "
        elif line.strip():
            yield line


def indent(line):
    return len(line) - len(line.lstrip())


def logical(lines):
    """Lines that are further in than the first go behind the one before; each part of a record stays a line."""
    step = indent(lines[0])
    if re.match(r" *(?:pub )?(?:record|data) ", lines[0]):
        step = min((indent(x) for x in lines[1:] if indent(x) > step), default=step)
    out = []
    for line in lines:
        if out and indent(line) > step:
            out[-1] += " " + line.strip()
        else:
            out.append(line.strip())
    return [squeezed(x) for x in out]


def declarations(text):
    """What a file declares: the name, and its lines. The first has its type or what it states, behind what the modules
    around it take."""
    name, depth, kept, taken, around = None, 0, [], "", []
    for line in [*joined(text), "use"]:
        m, module = DECLARED.match(line), MODULE.match(line)
        starts = m and m[2] not in ("let", "λ") and (name is None or len(m[1]) <= depth)
        if name and (starts or module or (indent(line) <= depth and ENDS.match(line.strip()))):
            lines = logical(kept)
            if taken:
                declared = DECLARED.match(lines[0])
                lines[0] = f"{declared[0]} {taken} →{lines[0][declared.end() :]}"
            yield name, lines
            name = None
        around = [(d, t) for d, t in around if d < indent(line)]
        if module:
            around.append((indent(line), re.sub(r" ?where$", "", squeezed(module[2]))))
        if starts:
            name, depth, kept, taken = m[2], len(m[1]), [line], " ".join(t for _, t in around)
        elif name:
            kept.append(line)


class Specs:
    """The definitions of specs/, and what the files of proofs/ that are no answers of a goal declare."""

    def __init__(self, top):
        self.definitions, self.lemmas = [], []
        for crate in sorted(os.listdir(os.path.join(top, "crates"))):
            for folder, to in (("specs", self.definitions), ("proofs", self.lemmas)):
                base = os.path.join(top, "crates", crate, folder)
                for path in files(base, ".antt"):
                    file = os.path.relpath(path, base)[: -len(".antt")]
                    if folder == "proofs" and os.sep in file:
                        continue
                    for name, lines in declarations(read(path)):
                        whole = folder == "specs" or DEFINES.match(lines[0])
                        to.append(Item(crate, file, name, lines if whole else lines[:1], True))


def named(top):
    """The names that stand alone in code spans of README and of the pages of docs/, with those pages."""
    pages = collections.defaultdict(set)
    for path in [os.path.join(top, "README.md"), *files(os.path.join(top, "docs"), ".md")]:
        for span in re.findall(r"`([^`\n]+)`", read(path)):
            if re.fullmatch(r"[\w'′-]+", span):
                pages[span].add(os.path.relpath(path, top))
    return pages


# ---- old beside new


def by_rules(text):
    """A text with what was turned to what is, and the numbers of the rules that were met."""
    met = []
    for i, (_, pattern, new) in enumerate(RULES, 1):
        turned = re.sub(pattern.replace("~", ARGUMENT), new, text)
        if turned != text:
            met.append(i)
            text = turned
    return text, met


def tree(tokens):
    """The words of a text, what stands in brackets as a list."""
    out = []
    while tokens:
        token = tokens.pop(0)
        if token == ")":
            return out
        out.append(tree(tokens) if token == "(" else token)
    return out


def less(words):
    """Without brackets that hold one thing, or all that stands between two signs."""
    words = [less(w) if isinstance(w, list) else w for w in words]
    words = [w[0] if isinstance(w, list) and len(w) == 1 else w for w in words]
    out, part = [], []
    for word in [*words, None]:
        if word is None or word in ("=", "→", "≡", ":", ";", "{", "}"):
            out += part[0] if len(part) == 1 and isinstance(part[0], list) else part
            out += [] if word is None else [word]
            part = []
        else:
            part.append(word)
    return out


def plain(text):
    """A text for comparing, without brackets that say nothing."""
    return less(tree(re.findall(r"[()]|[{};,]|[^\s(){};,]+", text)))


def respelled(old, new):
    """The numbers of the rules by which old lines are the new ones; none where they are not."""
    met = set()
    if len(old) != len(new):
        return ()
    for a, b in zip(old, new):
        if a != b:
            turned, some = by_rules(a)
            if plain(turned) != plain(b):
                return ()
            met.update(some)
    return tuple(sorted(met))


def beside(old, new):
    """The lines that differ, what was before what is."""
    out = []
    for kind, a, b, c, d in difflib.SequenceMatcher(None, old, new, autojunk=False).get_opcodes():
        if kind != "equal":
            out += ["- " + x for x in old[a:b]] + ["+ " + x for x in new[c:d]]
    return out


def paired(olds, news):
    """Old items with the new ones of the same crate and name, those that went, and those that are new. Of several
    of a name the same in words is taken first, then one of the same file."""
    left = collections.defaultdict(list)
    for item in news:
        left[item.crate, item.name].append(item)
    pairs, went = [], []
    for item in olds:
        same = left[item.crate, item.name]
        same.sort(key=lambda x: (x.lines != item.lines, x.file != item.file))
        if same:
            pairs.append((item, same.pop(0)))
        else:
            went.append(item)
    return pairs, went, [x for items in left.values() for x in items]


class Went:
    """The lines of design_went.txt: a kind and a name, and what states the promise now."""

    def __init__(self, path):
        self.lines, self.seen = {}, set()
        for line in read(path).splitlines():
            name, _, said = line.partition(" = ")
            if said and not line.startswith("#"):
                self.lines[name.strip()] = said.strip()

    def of(self, kind, name):
        self.seen.add(f"{kind} {name}")
        return self.lines.get(f"{kind} {name}")


class Report:
    def __init__(self, old, new, went):
        self.went, self.out, self.look = went, [], []

        def code(top):
            names = sorted(os.listdir(os.path.join(top, "crates")))
            return [Crate(top, c) for c in names if os.path.isdir(os.path.join(top, "crates", c, "src"))]

        self.old, self.new = code(old), code(new)
        self.old_specs, self.new_specs = Specs(old), Specs(new)
        calls = read(os.path.join(new, "docs", "CALLS.md"))
        self.calls = set(re.findall(r"\w+", " ".join(re.findall(r"`([^`]*)`", calls))))
        self.old_pages, self.new_pages = named(old), named(new)

    # ---- printing

    def say(self, text):
        self.out += ["", textwrap.fill(text, WIDTH, break_long_words=False, break_on_hyphens=False)]

    def title(self, text, about):
        self.out += ["", "### " + text]
        self.say(about)

    def block(self, lines):
        self.out += [""] + ["    " + x for x in lines]

    def entry(self, name, lines, more=""):
        self.say(f"`{name}`{more}")
        self.block(lines)

    def gone(self, kind, item, name, more=" went"):
        said = self.went.of(kind, name)
        if said is None:
            self.look.append(f"no line in design_went.txt: {kind} {name}")
        self.entry(item.name, ["- " + x for x in item.lines] + ["+ " + (said or "?")], more)

    def listing(self, lead, names):
        if names:
            self.say(lead + ": " + ", ".join(f"`{n}`" for n in names) + ".")

    def spelled(self, pairs, where):
        """Those of some pairs that differ by rules alone, in short; the others are given back."""
        groups, others = collections.defaultdict(list), []
        for a, b in pairs:
            met = respelled(a.lines, b.lines)
            if met:
                groups[met].append(f"`{b.name}` ({where(b)})")
            else:
                others.append((a, b))
        if groups:
            self.say("By rules alone differ:")
        for met, names in sorted(groups.items()):
            self.say(", ".join(f"R{i}" for i in met) + ": " + ", ".join(sorted(names)) + ".")
        return others

    # ---- the sections

    def rules(self):
        self.title("Rules", "Own enums gave way to `Option` and `Result`. What differs by these rules alone, applied "
                   "from top to bottom, is told in short.")
        self.block([f"R{i} {name}" for i, (name, _, _) in enumerate(RULES, 1)])

    def public(self, kind, title, about, items):
        olds = [x for c in self.old for x in items(c) if x.public]
        news = [x for c in self.new for x in items(c) if x.public]
        pairs, went, fresh = paired(olds, news)
        self.title(title, f"{about} {sum(a.lines == b.lines for a, b in pairs)} of {len(olds)} stayed as they were.")
        for a, b in pairs:
            if a.lines != b.lines:
                self.entry(b.name, beside(a.lines, b.lines))
        for a in went:
            self.gone(kind, a, a.name)
        for b in fresh:
            self.entry(b.name, ["+ " + x for x in b.lines], " is new")
        return news

    def functions(self):
        about = "Each function that another crate can call, if a word of it changed; clauses that stayed are left out."
        news = self.public("function", "Public signatures and clauses", about, lambda c: c.functions)
        for b in news:
            for line in b.lines[1:]:
                if line.startswith("requires"):
                    self.look.append(f"asks of its callers: {b.name}: {line}")
            if b.name.split("::")[-1] not in self.calls and ": impl " not in b.name and ": trait " not in b.name:
                self.look.append(f"not in docs/CALLS.md: {b.name}")

    def types(self):
        self.public("type", "Public types and constants", "Those that another crate can name.", lambda c: c.types)

    def invariants(self):
        pairs, went, fresh = paired([g for c in self.old for g in c.ghosts], [g for c in self.new for g in c.ghosts])
        self.title("Type invariants", "Ghost fields, invariants and views of types, and laws of impls and traits.")
        for a, b in pairs:
            if a.lines != b.lines:
                self.entry(b.name, beside(a.lines, b.lines))
        for a in went:
            self.entry(a.name, ["- " + x for x in a.lines], " went")
        for b in fresh:
            self.entry(b.name, ["+ " + x for x in b.lines], " is new")

    def definitions(self):
        pairs, _, fresh = paired(self.old_specs.definitions, self.new_specs.definitions)
        changed = [(a, b) for a, b in pairs if a.lines != b.lines]
        count = len(self.old_specs.definitions)
        self.title("Definitions", f"Those of specs/. {len(pairs) - len(changed)} of {count} stayed word for word. The "
                   "last section has those that went.")
        for a, b in self.spelled(changed, lambda x: x.crate):
            self.entry(b.name, beside(a.lines, b.lines), f" ({b.crate}/specs/{b.file})")
        for b in fresh:
            self.entry(b.name, ["+ " + x for x in b.lines], f" ({b.crate}/specs/{b.file}) is new")

    def is_known(self, lemma, pages):
        """Whether a page names it. A private one whose name is a single word is some other thing's name there."""
        private = not re.match(r"(?:\w+ )*pub ", lemma.lines[0])
        chance = private and ("_" not in lemma.name or DEFINES.match(lemma.lines[0]))
        return not chance and bool(pages.get(lemma.name, set()) - LISTS)

    def theorems(self):
        every, went, fresh = paired(self.old_specs.lemmas, self.new_specs.lemmas)
        pairs = [(a, b) for a, b in every if self.is_known(a, self.old_pages)]
        went = [a for a in went if self.is_known(a, self.old_pages)]
        changed = [(a, b) for a, b in pairs if a.lines != b.lines]
        self.title("Theorems", "What proofs/ states and README or a page of docs/ names, but for lists of what was. "
                   f"{len(pairs) - len(changed)} of {len(pairs) + len(went)} stayed word for word.")
        for a, b in self.spelled(changed, lambda x: f"{x.crate}/proofs/{x.file}"):
            self.entry(b.name, beside(a.lines, b.lines), f" ({b.crate}/proofs/{b.file})")
        for a in went:
            self.gone("theorem", a, f"{a.crate}/{a.name}", f" ({a.crate}/proofs/{a.file}) went")
        taken = {f.name.split("::")[-1] for c in self.new for f in c.functions}
        taken |= {d.name for d in self.old_specs.definitions + self.new_specs.definitions}
        for b in fresh:
            if self.is_known(b, self.new_pages) and b.name not in taken:
                self.entry(b.name, ["+ " + x for x in b.lines], f" ({b.crate}/proofs/{b.file}) is new")
        self.under(every, pairs)

    def under(self, every, pairs):
        """Definitions of proofs/ that such a statement uses, and that differ by more than rules."""
        words = {w for a, b in pairs for w in WORD.findall(a.lines[0] + " " + b.lines[0])}
        for a, b in every:
            used = a.name in words and DEFINES.match(a.lines[0]) and (a, b) not in pairs
            if used and a.lines != b.lines and not respelled(a.lines, b.lines):
                self.entry(b.name, beside(a.lines, b.lines), f" ({b.crate}/proofs/{b.file}), of such a statement")

    def private(self):
        self.title("Private functions, definitions and lemmas that went", "Beside each what states its promise now. A "
                   "lemma that no page names has none of its own, so its name alone stands here.")
        news = [f for c in self.new for f in c.functions]
        _, went, _ = paired([f for c in self.old for f in c.functions if not f.public], news)
        names = {(f.crate, f.lines[0].split("(")[0].split("<")[0]) for f in news}
        moved = [f for f in went if (f.crate, f.lines[0].split("(")[0].split("<")[0]) in names]
        gone = [f for f in went if f not in moved]
        _, went, _ = paired(self.old_specs.definitions, self.new_specs.definitions)
        rows = [("function", f.name) for f in gone if f.crate not in PROGRAMS]
        rows += [("definition", f"{d.crate}/{d.name}") for d in went]
        self.out += ["", "| What went | What states its promise |", "|---|---|"]
        for kind, name in sorted(rows):
            said = self.went.of(kind, name)
            if said is None:
                self.look.append(f"no line in design_went.txt: {kind} {name}")
            self.out.append(f"| {kind} `{name}` | {said or '?'} |")
        about = "Of the programs over cases, whose functions said how far they read and nothing of what they print"
        self.listing(about, sorted(f.name for f in gone if f.crate in PROGRAMS))
        self.listing("Functions that are in another file or became methods, under their names",
                     sorted(f.name for f in moved))
        _, went, _ = paired(self.old_specs.lemmas, self.new_specs.lemmas)
        by_file = collections.defaultdict(list)
        for a in went:
            if not self.is_known(a, self.old_pages):
                by_file[f"{a.crate}/proofs/{a.file}"].append(a.name)
        for file, lemmas in sorted(by_file.items()):
            self.listing(file, lemmas)

    def print_all(self, check):
        self.rules()
        self.functions()
        self.types()
        self.invariants()
        self.definitions()
        self.theorems()
        self.private()
        if check:
            rest = sorted(set(self.went.lines) - self.went.seen)
            self.look += ["needed by no name: " + key for key in rest if BACK not in self.went.lines[key]]
            print("\n".join(self.look) or "nothing to look at")
        else:
            print("\n".join(self.out).strip())


def main():
    folders = [a for a in sys.argv[1:] if not a.startswith("--")]
    if not folders:
        sys.exit(__doc__)
    here = os.path.dirname(os.path.abspath(__file__))
    new = folders[1] if len(folders) > 1 else os.path.dirname(here)
    went = Went(os.path.join(here, "design_went.txt"))
    Report(folders[0], new, went).print_all("--check" in sys.argv)


main()
