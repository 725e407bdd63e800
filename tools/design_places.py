#!/usr/bin/env python3
"""Lists the places in the code that a pass over its design looks at, and counts them per point and crate.

usage: python3 tools/design_places.py [--point N] [--counts] [--library FOLDER]     at the repository's top

Points 1 to 7 are looked for in crates/*/src, point 8 in crates/*/proofs. FOLDER is the toolchain's folder that has
std and core, whose lemmas point 8 looks through; where it is not given, that part is left out. --counts prints counts
alone.

A place is found by its text, so some kinds list more than a reader would call old; docs/DESIGN-PASS.md says which.
A line is: point and kind, file:line, the name there, a few words.
"""

import argparse
import collections
import glob
import itertools
import os
import re

KINDS = {
    "1a": "enum with the shape of Option or Result",
    "1b": "enum with a refusal or a nothing among values",
    "1c": "struct with a check or flag beside values",
    "1d": "0 or an empty slice for none",
    "1e": "constant that numbers a kind",
    "1f": "test of a kind by its number",
    "1g": "refusal or nothing handed on by hand",
    "1h": "result beside a filled buffer: bool or length",
    "2a": "functions with the same body but for names, types and numbers",
    "2b": "functions with the same contract",
    "2c": "function that only calls another with its own parameters",
    "2d": "function of this name in another crate",
    "2e": "types that differ in one type only",
    "2f": "four lines or more as in another function",
    "3a": "while with an index counted by hand",
    "3b": "other while",
    "3c": "loop",
    "4a": "match from or to numbers, letters or flags",
    "4b": "function from one number type to another",
    "4c": "match from one type to another",
    "4d": "equality by hand",
    "4e": "smaller or larger of two by hand",
    "4f": "struct copied field by field",
    "4g": "printing by hand",
    "4h": "type without derived equality",
    "4i": "class or case of a letter by hand",
    "4j": "number put together from bytes, or taken apart, by hand",
    "5a": "fact in three contracts or more",
    "5b": "parameters together in three functions or more",
    "5c": "fact of one form, but for a number or what stands in brackets, in three contracts or more",
    "6a": "array with a length beside",
    "6b": "start and length or end together",
    "6c": "parallel arrays",
    "6d": "search by hand",
    "6e": "index into an array kept in a value",
    "7a": "switch over calls with the same arguments",
    "7b": "function type, dyn or Fn",
    "8a": "answers and goals of a crate",
    "8b": "lemma that nothing names",
    "8c": "lemma file that nothing uses",
    "8d": "lemma whose statement is made of the words of one of the library",
    "8e": "answer repeated in another file",
}
NUMBERS = {"u8", "u16", "u32", "u64", "usize", "i8", "i16", "i32", "i64", "isize", "f32", "f64"}
NONE = r"(?:Nothing|None|NoRoom|Invalid|Unknown|Missing|Refused|Err|Bad|Cut|Over|OutsideHeap)"
TOKEN = re.compile(r"b?\"(?:\\.|[^\"])*\"|b?'(?:\\.|[^'])'|[A-Za-z_]\w*(?:::[A-Za-z_]\w*)*|\d[\d_.]*\w*|\S")
WORDS = set("as break continue else false for if in let loop match mut return self true while".split())
Function = collections.namedtuple("Function", "file line name params result clauses body start")
Type = collections.namedtuple("Type", "file line kind name derives parts")


def closing(text, at):
    """The place after the bracket that closes the one at `at`."""
    depth = 0
    for i in range(at, len(text)):
        depth += (text[i] in "([{") - (text[i] in ")]}")
        if depth == 0:
            return i + 1
    return len(text)


def split(text, mark=",", opening="([{<", close=")]}>"):
    """The parts of a text between marks that stand in no bracket."""
    parts, depth, part = [], 0, ""
    for before, c in zip(" " + text, text):
        depth += (c in opening) - (c in close and before + c != "->")
        if c == mark and depth == 0:
            parts.append(part)
            part = ""
        else:
            part += c
    return [" ".join(p.split()) for p in parts + [part] if p.strip()]


def bare(text):
    """The text with comments turned to spaces, so that places stay."""
    return re.sub(r"//[^\n]*", lambda m: " " * len(m[0]), text)


def line_of(text, at):
    return text.count("\n", 0, at) + 1


def functions(file, text):
    for m in re.finditer(r"^[ ]*(?:pub(?:\(\w+\))? )?(?:const |unsafe |extern \"C\" )*fn (\w+)", text, re.M):
        # The brackets of type parameters may have those of a closure's type in them.
        generic = re.compile(r"<(?:[^<>]|->|<[^<>]*>)*>").match(text, m.end())
        at = text.index("(", generic.end() if generic else m.end())
        end = closing(text, at)
        params = []
        for param in split(text[at + 1 : end - 1]):
            name, _, kind = param.partition(":")
            params.append((name.replace("mut ", "").strip(), kind.strip()))
        head = re.compile(r"\s*(?:->\s*([^{\n]+?))?\s*(?=\n|\{|where\b)").match(text, end)
        result, end, clauses = (head[1] or "").strip(), head.end(), []
        while True:
            where = re.compile(r"\s*where [^{]*?(?=\n\s*(?:requires|ensures|\{))").match(text, end)
            end = where.end() if where else end
            clause = re.compile(r"\s*(requires|ensures)[^{]*(?=\{)").match(text, end)
            if not clause:
                break
            end = closing(text, clause.end())
            clauses.append((clause[1], " ".join(text[clause.end() + 1 : end - 1].split())))
        brace = re.compile(r"\s*\{").match(text, end)
        if brace:
            body = text[brace.end() : closing(text, brace.end() - 1) - 1]
            yield Function(file, line_of(text, m.start()), m[1], params, result, clauses, body, brace.end())


def types(file, text):
    for m in re.finditer(r"^((?:#\[[^\n]*\n)*)(?:pub(?:\(\w+\))? )?(enum|struct) (\w+)[^{;\n]*\{", text, re.M):
        parts = split(text[m.end() : closing(text, m.end() - 1) - 1])
        parts = [re.sub(r"^(?:#\[[^\]]*\] *)*(?:pub(?:\(\w+\))? )?", "", p) for p in parts]
        yield Type(file, line_of(text, m.start(2)), m[2], m[3], " ".join(re.findall(r"derive\((.*?)\)", m[1])), parts)


def field_type(part):
    return part.partition(":")[2].strip()


def blocks(function, word):
    """The loops of a function: place in the file, the test, the body."""
    for m in re.finditer(rf"\b{word}\b([^{{}}]*)\{{", function.body):
        end = closing(function.body, m.end() - 1)
        yield m.start(), m[1].strip(), function.body[m.end() : end - 1]


def shape(body):
    """A body with its names and numbers turned to places in order, and without casts."""
    body = re.sub(r"\s+as \w+", "", body)
    body = re.sub(r"\(([\w.]+)\)(?=[ ,;)])", r"\1", body)
    names, out = {}, []
    for token in TOKEN.findall(re.sub(r",(\s*[)}\]])", r"\1", body)):
        if token in WORDS:
            out.append(token)
        elif re.match(r"\d|b?['\"]", token):
            out.append("N")
        elif re.match(r"[A-Za-z_]", token):
            out.append(names.setdefault(token, f"v{len(names)}"))
        else:
            out.append(token)
    return " ".join(out)


def lines_in(text):
    return sum(1 for line in text.splitlines() if line.strip())


def by_type(function, clause):
    """A clause with the names of parameters turned to their types."""
    for name, kind in function.params:
        if re.fullmatch(r"\w+", name):
            clause = re.sub(rf"(?<![\w.]){name}(?!\w)", "<" + re.sub(r"'\w+ ?|mut ", "", kind) + ">", clause)
    return clause


def by_place(function):
    """All clauses of a function, its parameters numbered."""
    out = []
    for kind, clause in function.clauses:
        for i, (name, _) in enumerate(function.params):
            clause = re.sub(rf"(?<![\w.]){name}(?!\w)", f"p{i}", clause) if name else clause
        out.append(kind + " " + clause)
    return " ".join(out)


def conjuncts(clause):
    """The facts of a clause that are joined by ×, with the brackets around each taken off."""
    while clause.startswith("(") and closing(clause, 0) == len(clause):
        clause = clause[1:-1].strip()
    parts = split(clause, "×", "([{", ")]}")
    return [clause] if len(parts) < 2 else [fact for part in parts for fact in conjuncts(part)]


def form(fact):
    """A fact without its numbers and without what stands in its outermost brackets."""
    out, depth = "", 0
    for c in fact:
        depth -= c == ")"
        out += c if depth == 0 else ""
        depth += c == "("
    return re.sub(r"\b\d+\b", "N", out)


def lemmas(text):
    """The names that a file of proofs declares: each with the words of what it states, sorted, and its place."""
    declared = r"^( *)(?:(?:abbrev|unfoldable|opaque|pub) )*([^\s(){}.;,:]+)(?: \{[^}\n]*\})* : ((?:.*\n)(?:\1 +.*\n)*)"
    for m in re.finditer(declared, text, re.M):
        said = re.sub(r"\([^():]* : [^()]*\)|\{[^{}]*\}", " ", m[3])
        said = tuple(sorted(w for w in re.findall(r"[^\s(){}.;,]+", said) if len(w) > 1 or not w.isalpha()))
        yield m[2], said if len(said) - said.count("→") > 3 else None, m.start(2)


class Search:
    def __init__(self):
        self.places = []
        self.texts = {}
        for file in sorted(glob.glob("crates/*/src/**/*.rt", recursive=True)):
            with open(file, encoding="utf-8") as f:
                self.texts[file] = bare(f.read())
        self.functions = [x for file, text in self.texts.items() for x in functions(file, text)]
        self.types = [x for file, text in self.texts.items() for x in types(file, text)]

    def add(self, kind, file, line, name, words=""):
        self.places.append((kind, file, line, name, " ".join(words.split())[:110]))

    def at(self, kind, function, words=""):
        self.add(kind, function.file, function.line, function.name, words)

    def inside(self, kind, function, at, words=""):
        self.add(kind, function.file, line_of(self.texts[function.file], function.start + at), function.name, words)

    def groups(self, kind, pairs, words=lambda key: ""):
        """A place for each member of a group of two or more, which names the others."""
        found = collections.defaultdict(list)
        for key, item in pairs:
            found[key].append(item)
        for key, items in found.items():
            for item in items if len(items) > 1 else []:
                others = ", ".join(f"{x.file.split('/')[1]} {x.name}" for x in items if x is not item)
                self.add(kind, item.file, item.line, item.name, "with " + others + words(key))

    def point1(self):
        for t in self.types:
            if t.kind == "enum":
                empty = [p for p in t.parts if re.fullmatch(r"\w+", p)]
                if len(t.parts) == 2 and len(empty) == 1:
                    self.add("1a", t.file, t.line, t.name, " / ".join(t.parts))
                elif any(re.match(NONE + r"\b", p) for p in t.parts):
                    odd = [p for p in t.parts if re.match(NONE + r"\b", p)]
                    self.add("1b", t.file, t.line, t.name, ", ".join(odd) + f" of {len(t.parts)} variants")
            elif len(t.parts) > 1:
                flag = r"(?:Check|bool|Option<Refusal>|Result<\(\), .*)$"
                flags = [p for p in t.parts if re.match(flag, field_type(p))]
                if flags:
                    self.add("1c", t.file, t.line, t.name, ", ".join(flags) + f" of {len(t.parts)} fields")
        for file, text in self.texts.items():
            numbers = [(int(m[2]), m) for m in re.finditer(r"const (\w+): \w+ = (\d+);", text)]
            for i, (n, m) in enumerate(numbers):
                near = [numbers[j][0] for j in (i - 1, i + 1) if 0 <= j < len(numbers)]
                if n - 1 in near or n + 1 in near:
                    self.add("1e", file, line_of(text, m.start()), m[1], f"= {n}")
        for f in self.functions:
            for m in re.finditer(r"return 0;|&\w+\[(?:0)?\.\.0\]|if [\w.]+ == 0 \{|=> 0,", f.body):
                self.inside("1d", f, m.start(), m[0])
            numbered = r"\bkind(?:\([^()]*\))? == \d+|\w+\([^()]*, \d+\) == \d+|\d+ <= \w+\([^()]*\)"
            for m in re.finditer(numbered, f.body):
                self.inside("1f", f, m.start(), m[0])
            handed = rf"\w*(?:::)?{NONE}(?:\(\w+\))? => (?:return )?(?:\w+::)*{NONE}\b[^\n]*"
            left = rf"else \{{\s*return (?:\w+::)*{NONE}\b[^;{{]*;"
            for m in re.finditer(rf"{handed}|{left}|(?:Check::Refused|Err)\(\w+\) =>? ", f.body):
                self.inside("1g", f, m.start(), m[0])
            if any("&mut" in kind for _, kind in f.params) and re.fullmatch(r"bool|usize|u64", f.result):
                self.at("1h", f, f"gives {f.result}, writes " + ", ".join(n for n, k in f.params if "&mut" in k))

    def point2(self):
        names = collections.defaultdict(dict)
        for f in self.functions:
            names[f.name].setdefault(f.file.split("/")[1], shape(f.body))
        long = [f for f in self.functions if lines_in(f.body) >= 3 or len(shape(f.body).split()) >= 12]
        self.groups("2a", [(shape(f.body) + str(len(f.params)), f) for f in long])
        self.groups("2b", [(by_place(f) + f.result, f) for f in self.functions if f.clauses and "≡" in by_place(f)])
        for f in self.functions:
            call = re.fullmatch(r"\s*(?:return )?([\w:]+)\((.*?),?\s*\);?\s*", f.body, re.S)
            given = [re.sub(r"^&(mut )?| as \w+$", "", a) for a in split(call[2])] if call else []
            if call and given and given == [name for name, _ in f.params]:
                self.at("2c", f, "calls " + call[1])
            others = {c: body for c, body in names[f.name].items() if c != f.file.split("/")[1]}
            if others and f.name != "main":
                same = [c for c, body in others.items() if body == shape(f.body)]
                self.at("2d", f, f"also in {', '.join(others)}" + (f"; the same in {', '.join(same)}" if same else ""))
        runs = collections.defaultdict(set)
        for i, f in enumerate(self.functions):
            lines = [re.sub(r"\b\w+\.(?=\w)", "", x.strip()) for x in f.body.splitlines() if re.search(r"\w\W*\w", x)]
            for j in range(len(lines) - 3):
                runs[tuple(lines[j : j + 4])].add(i)
        for i, f in enumerate(self.functions):
            others = sorted({j for run in runs.values() if i in run for j in run if j != i})
            if others:
                self.at("2f", f, "and " + ", ".join(self.functions[j].name for j in others))
        for t in self.types:
            alike = [o.name for o in self.types if o is not t and o.kind == t.kind and self.alike(t, o)]
            if alike:
                self.add("2e", t.file, t.line, t.name, "and " + ", ".join(alike))

    def alike(self, one, other):
        """Whether two types have as many parts of the same types, but for one at most."""
        mine, theirs = ([field_type(p) or p.partition("(")[2] for p in x.parts] for x in (one, other))
        both = collections.Counter(mine) & collections.Counter(theirs)
        return len(mine) == len(theirs) > 1 and any(mine) and sum(both.values()) >= len(mine) - 1

    def point3(self):
        for f in self.functions:
            for at, test, body in blocks(f, "while"):
                counted = re.search(r"\b(\w+) [+-]= \d+;|\b(\w+) = \2 [+-] \d+;", body)
                self.inside("3a" if counted else "3b", f, at, f"while {test}" + (f": {counted[0]}" if counted else ""))
            for at, _, _ in blocks(f, "loop"):
                self.inside("3c", f, at)

    def point4(self):
        own = {t.name for t in self.types}
        for f in self.functions:
            kinds = [re.sub(r"^&(mut )?", "", k) for _, k in f.params]
            arms = re.findall(r"^\s*(.+?) => (.+?),?$", f.body, re.M)
            literal = r"(?:\d+|b?'.'|b?\"[^\"]*\"|true|false)(?: \| b?'.'| \| \d+)*"
            plain = [a for a in arms if re.fullmatch(literal, a[0]) or re.fullmatch(literal, a[1])]
            lone = re.fullmatch(r"\s*(?:let \w+ = [\w.]+;\s*)?match .*\}\s*", f.body, re.S)
            one = len(kinds) == 1 and f.result and kinds[0] != f.result
            if lone and len(plain) >= 2:
                self.at("4a", f, f"{', '.join(kinds)} -> {f.result}")
            elif lone and one and (f.result in own or kinds[0] in own):
                self.at("4c", f, f"{kinds[0]} -> {f.result}")
            if one and kinds[0] in NUMBERS and f.result in NUMBERS:
                self.at("4b", f, f"{kinds[0]} -> {f.result}")
            if f.result == "bool" and len(kinds) == 2 and kinds[0] == kinds[1]:
                self.at("4d", f, kinds[0])
            smaller = r"if ([\w.()]+) <=? ([\w.()]+) \{\s*(?:return )?(?:\1|\2|\w+);?\s*\}(?: else \{)?\s*"
            smaller += r"&?(?:\1|\2|\w+(?:\[\.\.\w+\]| as \w+)?)\s*\}?"
            if re.fullmatch(r"\s*(?:let [^;]*;\s*)*" + smaller + r"\s*", f.body):
                self.at("4e", f)
            for m in re.finditer(r"\b([A-Z]\w+) \{([^{}]*)\}", f.body):
                copied = re.findall(r"\b(\w+): (\w+)\.\1\b", m[2])
                if len(copied) > 1:
                    self.inside("4f", f, m.start(), f"{m[1]}: {len(copied)} fields of {copied[0][1]}")
            for m in re.finditer(r"(?:^\s*let (\w+) = (\w+)\.\1;\n){2,}", f.body, re.M):
                self.inside("4f", f, m.start() + 1, f"fields of {m[2]} taken out one by one")
            for m in re.finditer(r"\b(?:57|90|b'9') < \w+|\w+(?:\[\w+\])? < (?:48|65|b'0')|\w+ \+ 32\b(?!,)", f.body):
                self.inside("4i", f, m.start(), m[0])
            power = r"[*/%] (?:256|65536|16777216|4294967296|281474976710656|72057594037927936)\b"
            if re.search(power, f.body):
                self.at("4j", f, " ".join(re.findall(power, f.body)))
            first = f.params[0] if f.params else ("", "")
            if re.match(r"(?:put|print|write)(?:_|$)|\w+_line$", f.name) and re.search(r"HostRuntime|mut ", first[1]):
                self.at("4g", f)
        for t in self.types:
            if "PartialEq" not in t.derives:
                self.add("4h", t.file, t.line, t.name, f"{t.kind}, derives {t.derives or 'nothing'}")

    def point5(self):
        exact, formed = collections.defaultdict(list), collections.defaultdict(list)
        for f in self.functions:
            for kind, clause in f.clauses:
                for fact in dict.fromkeys(conjuncts(by_type(f, clause))):
                    exact[kind + " " + fact].append(f)
                    formed[kind + " " + form(fact)].append(f)
        for kind, facts in ("5a", exact), ("5c", formed):
            for fact, users in facts.items():
                users = list({(u.file, u.line): u for u in users}.values())
                told = kind == "5a" or fact not in exact and re.search(r"_|\.old", fact)
                if len(users) >= 3 and told:
                    names = ", ".join(f"{u.file.split('/')[1]} {u.name}" for u in users)
                    words = f"{len(users)}: {fact[:90]} | {names}"
                    self.places.append((kind, users[0].file, users[0].line, users[0].name, words))
        sets = [(f, frozenset(p for p in f.params if p[1])) for f in self.functions if len(f.params) >= 3]
        closed = {a & b for (_, a), (_, b) in itertools.combinations(sets, 2) if len(a & b) >= 3}
        for group in sorted(closed, key=lambda g: (-len(g), sorted(g))):
            users = [f for f, params in sets if group <= params]
            if len(users) >= 3:
                crates = collections.Counter(u.file.split("/")[1] for u in users)
                words = f"{len(users)}: " + ", ".join(sorted(n for n, _ in group))
                self.at("5b", users[0], words + " | " + ", ".join(f"{c} {n}" for c, n in crates.items()))

    def point6(self):
        for t in self.types:
            for part in t.parts:
                fields = split(re.sub(r"^\w+ \{(.*)\}$", r"\1", part)) if t.kind == "enum" else [part]
                words = {re.match(r"(?:pub )?(\w+)", x)[1] for x in fields}
                if {"start", "len"} <= words:
                    self.add("6b", t.file, t.line, t.name, part)
                if t.kind == "struct" and field_type(part).startswith("["):
                    self.add("6a", t.file, t.line, t.name, part)
            words = {p.partition(":")[0] for p in t.parts}
            if t.kind == "struct" and len(words & {"start", "len", "end", "n"}) > 1 and "start" in words:
                self.add("6b", t.file, t.line, t.name, ", ".join(t.parts))
            arrays = [field_type(p) for p in t.parts if t.kind == "struct" and field_type(p).startswith("[")]
            if len(set(arrays)) < len(arrays):
                self.add("6c", t.file, t.line, t.name, ", ".join(arrays))
        for f in self.functions:
            for m in re.finditer(r"let (?:mut )?(\w+) = (\[[^\[\];]+; [^\]]+\]);", f.body):
                self.inside("6a", f, m.start(), f"{m[1]} = {m[2]}")
            names = {n for n, _ in f.params}
            if "start" in names and names & {"len", "end", "n"} or {"at", "n"} <= names:
                self.at("6b", f, ", ".join(n for n, _ in f.params))
            local = re.findall(r"let mut \w+ = (\[[^\[\];]+; [^\]]+\]);", f.body)
            lent = [k for _, k in f.params if re.match(r"&(?:mut )?\[u16\]", k)]
            if len(set(local)) < len(local) or len(lent) > 1:
                self.at("6c", f, ", ".join(local + lent))
            for at, test, body in list(blocks(f, "while")) + list(blocks(f, "for")):
                if re.search(r"if [^{]*\{\s*return (?!.*\b(?:false|Refused)\b)", body):
                    self.inside("6d", f, at, test)
            if len(re.findall(r"if ascii::same_bytes\(", f.body)) > 2:
                self.at("6d", f, "a chain of comparisons")
            for m in re.finditer(r"\w+\[\w+\.\w+(?: as usize)?\]|let k = \w+\.column;", f.body):
                self.inside("6e", f, m.start(), m[0])

    def point7(self):
        for f in self.functions:
            call = r"(?:=> (?:\{\s*)?|return |^    )([\w:]+)\(([^;{}]*?)\)(?=,?;?\s*(?:\n|\}))"
            calls = [(name, split(args)) for name, args in re.findall(call, f.body, re.S | re.M)]
            calls = [(name, args) for name, args in calls if not re.search(r"(?:^|::)[A-Z]\w*$", name)]
            alike = collections.defaultdict(set)
            for name, args in calls:
                if args:
                    alike[tuple(args[:2])].add(name)
            for args, names in alike.items():
                if len(names) > 1 and re.search(r"\b(?:match|if)\b", f.body):
                    self.at("7a", f, f"({', '.join(args)} ..): " + ", ".join(sorted(names)))
        for file, text in self.texts.items():
            for m in re.finditer(r"(?<!\w)fn\(|\bdyn \w+|\bFn(?:Once|Mut)?\(", text):
                self.add("7b", file, line_of(text, m.start()), m[0])

    def point8(self, library):
        texts = {}
        for file in sorted(glob.glob("crates/**/*.antt", recursive=True)):
            if "/out/" not in file:
                with open(file, encoding="utf-8") as f:
                    texts[file] = re.sub(r"--[^\n]*", "", f.read())
        code = "\n".join(self.texts.values())
        pages = set()
        for file in glob.glob("*.md") + glob.glob("docs/**/*.md", recursive=True):
            with open(file, encoding="utf-8") as f:
                pages.update(w for span in re.findall(r"`[^`\n]+`", f.read()) for w in re.findall(r"[\w'-]+", span))
        words = collections.Counter(w for t in [*texts.values(), code] for w in re.findall(r"[^\s(){}.;,@\"«»:]+", t))
        std = {}
        for folder in ("std*/proofs", "core/proofs", "logic/Lib") if library else []:
            for file in glob.glob(os.path.join(library, folder, "**/*.antt"), recursive=True):
                with open(file, encoding="utf-8") as f:
                    std.update((said, name) for name, said, _ in lemmas(f.read()))
        if library and not std:
            raise SystemExit(f"no lemmas below '{library}': give the folder that has std and core")
        answers = collections.defaultdict(list)
        for crate in sorted(os.listdir("crates")):
            own = {f: t for f, t in texts.items() if f.startswith(f"crates/{crate}/proofs/")}
            answered = [f for f in own if f.endswith(("/Answers.antt", "/Proof.antt")) and f.count("/") > 3]
            goals = sum(len(re.findall(r"^pub \S+ : goal\.", own[f], re.M)) for f in answered)
            if own:
                lines = sum(lines_in(own[f]) for f in answered)
                said = f"{lines} answer lines in {len(answered)} files, {goals} goals, "
                said += f"{sum(map(lines_in, own.values()))} lines of proofs in all"
                self.add("8a", f"crates/{crate}/proofs", 1, crate, said)
            for file, text in own.items():
                if file in answered:
                    for m in re.finditer(r"^pub (\S+) : goal\.\1\n\1 ?((?:.*\n)(?: .*\n|\n)*)", text, re.M):
                        answers[" ".join(m[2].split())].append((file, line_of(text, m.start()), m[1]))
                    continue
                if file.endswith(("/Lib.antt", "/Invariants.antt")):
                    continue
                module = file[:-5].split("/proofs/")[1].replace("/", ".")
                path = module.replace(".", "(?:[.]|::)")
                if not any(re.search(rf"\b{crate}(?:\.|::)proofs(?:\.|::){path}\b", t)
                           for t in [code, *(t for f, t in texts.items() if f != file)]) and not any(
                               re.search(rf"\bcrate::proofs::{path}\b", self.texts[f])
                               for f in self.texts if f.startswith(f"crates/{crate}/src/")):
                    told = [name for name, _, _ in lemmas(text) if name in pages]
                    self.add("8c", file, 1, module, "a page names " + ", ".join(told) if told else "")
                for name, said, at in lemmas(text):
                    uses = len(re.findall(rf"^ *{re.escape(name)}(?=[ \n]).*=", text, re.M)) + 1
                    if words[name] <= uses and name not in pages:
                        self.add("8b", file, line_of(text, at), name)
                    if said and said in std:
                        self.add("8d", file, line_of(text, at), name, f"{std[said]}: {' '.join(said)}")
        for body, places in answers.items():
            if len({p[0] for p in places}) > 1:
                for file, line, name in places:
                    self.add("8e", file, line, name, f"{len(places)}: {body}")


def main():
    options = argparse.ArgumentParser(usage="python3 tools/design_places.py [--point N] [--counts] [--library FOLDER]")
    options.add_argument("--point", type=int, choices=range(1, 9))
    options.add_argument("--counts", action="store_true")
    options.add_argument("--library")
    args = options.parse_args()
    search = Search()
    for n in [args.point] if args.point else range(1, 9):
        getattr(search, f"point{n}")(*([args.library] if n == 8 else []))
    places = sorted(dict.fromkeys(search.places))
    if not args.counts:
        for kind, file, line, name, words in places:
            print(f"{kind} {file}:{line} {name}  {words}".rstrip())
        print()
    for kind, words in KINDS.items():
        if args.point and kind[0] != str(args.point):
            continue
        crates = collections.Counter(p[1].split("/")[1] for p in places if p[0] == kind)
        left_out = kind == "8d" and not args.library
        print(f"{kind} {words}: {'left out, no --library' if left_out else sum(crates.values())}")
        if crates:
            print("   " + ", ".join(f"{crate} {n}" for crate, n in sorted(crates.items())))


if __name__ == "__main__":
    main()
