#!/usr/bin/env python3
"""Brings the repository's own definitions, lemmas and fields to today's spelling: snake case, as std's. Run once, at the top, behind the kit's port.py.

usage: respell.py [--check]

A name that specs/ or proofs/ declare is turned where it has a dash or a capital behind a small letter: 'sumType' is sum_type, 'told-exactly' told_exactly. What the
old kit made itself keeps its name until its proof is rewritten (a name declared at a type 'tie.X', and what stands behind the dot of a variable, but for the fields
of the repository's own records). Sources turn in clauses and 'ghost use' lines alone. Edits and pages turn too. --check writes nothing and prints the names that
would fall together.
"""

import collections
import os
import re
import sys

WORD = re.compile(r'[^\s(){}.;,@"«»|↦\x60]+')
QUIET = re.compile(r'"(?:[^"\\\n]|\\.)*"|(?<![^\s(){}.;,@"«»])--[^\n]*')
NAMES = r'(?:[^\s(){}.;,@"«»:|↦=λ]+ )+'
TOP = re.compile(rf"(?m)^(?:abbrev )?(?:unfoldable )?(?:pub )?({NAMES}):(?: |\n)(\S*)")
INNER = re.compile(rf"(?m)^\s+(?:pub )?({NAMES}):(?: |\n)")
RECORD = re.compile(r"(?m)^(?:unfoldable )?(?:pub )?record .*\n((?:[ \t]+.*\n|\s*\n)*)")
KEYWORDS = {"abbrev", "unfoldable", "pub", "data", "record", "use", "where", "ruleset"}
# Names that are left: a library or the language has the new spelling in the files that have the old one, so another is taken.
OTHER = {
    "archEnd": "end_of_arch",
    "archOf": "of_arch",
    "entityEnd": "end_of_entity",
    "atFirst": "kept_at_first",
    "bitByte": "byte_of_bit",
    "intAt": "integer_at",
    "lineCode": "code_of_line",
    "linesCode": "code_of_lines",
    "placeOk": "place_allowed",
    "rawAt": "raw_line_at",
    "rowsOn": "rows_run_on",
    "runEnd": "end_of_run",
    "sameTag": "tags_same",
    "unaryType": "type_of_unary",
    "binaryType": "type_of_binary",
    "wholeIn": "whole_place_in",
}
# A lemma that would have its function's name, or that of what its file takes from elsewhere, ends in _lem.
LEMMAS = set("bit-at name-at item-at rows-from set-row start-of tail-at type-at type-bytes value-at arch-end arch-of entity-end".split())


def texts(endings):
    for top in ("crates", "docs", "README.md", "tests", "include"):
        if os.path.isfile(top):
            yield top
        for folder, dirs, names in os.walk(top):
            dirs[:] = sorted(d for d in dirs if d not in ("out", "target", "source"))
            for name in sorted(names):
                if name.endswith(endings):
                    yield os.path.join(folder, name)


def read(path):
    with open(path, encoding="utf-8") as f:
        return f.read()


def snake(name):
    if name in OTHER:
        return OTHER[name]
    if name in LEMMAS:
        return name.replace("-", "_") + "_lem"
    words = name
    if name[:1].islower():
        words = re.sub(r"(?<=[a-z0-9])[A-Z]{2,}(?![a-z])|(?<=[a-z0-9])[A-Z]", lambda m: "_" + m[0].lower(), name)
    return words.replace("-", "_")


def turns(name):
    dash = "-" in name and re.search(r"\w", name)
    camel = name[:1].islower() and re.search(r"[a-z0-9][A-Z]", name)
    return (dash or camel) and not re.search(r"[◌→≡]", name)


def declared():
    """The names that files of specs/ and proofs/ declare, the fields among them, and those that the old kit made."""
    names, fields, made = set(), set(), set()
    for path in texts((".antt",)):
        code = QUIET.sub("", read(path))
        for m in TOP.finditer(code):
            for name in m[1].split():
                (made if m[2].startswith("tie.") else names).add(name)
        for m in INNER.finditer(code):
            names.update(m[1].split())
        names.update(re.findall(r"(?<![^\s{,])\S+ as ([^\s{},]+)", code))
        for m in re.finditer(r"(?m)^(?:unfoldable )?(?:abbrev )?(?:pub )?(?:data|record|ruleset) (?:pub )?(\S+)", code):
            names.add(m[1])
        for m in RECORD.finditer(code):
            for f in INNER.finditer(m[1]):
                fields.update(f[1].split())
        for m in re.finditer(r"(?m)^data.*\n((?:[ \t]+.*\n)*)|^pub data.*\n((?:[ \t]+.*\n)*)", code):
            for f in INNER.finditer(m[1] or m[2] or ""):
                names.update(f[1].split())
    return names - KEYWORDS, fields, made


def imported():
    """The names that come from libraries."""
    found = set()
    for path in texts((".antt", ".rt")):
        for m in re.finditer(r"(?m)^(?:ghost )?use ([^\s{;]+)\.\{([^}]*)\}", read(path)):
            if not re.match(r"Rattle\.(?!std\b|core\b)", m[1]):
                for name in m[2].split(","):
                    found.add(name.split(" as ")[0].strip())
    return found


class Turner:
    def __init__(self, table, fields):
        self.table, self.fields, self.count = table, fields, 0

    def code(self, text):
        def one(m):
            word = m[0]
            bare = word.rstrip("'")
            new = self.table.get(word) or (self.table[bare] + word[len(bare):] if bare in self.table else None)
            if new is None:
                return word
            if m.start() and text[m.start() - 1] == ".":
                head = re.search(r"[^\s(){};,@\"«»|↦]*$", text[: m.start()])[0]
                if not (head[:1].isupper() or word in self.fields):
                    return word
            self.count += 1
            return new

        return WORD.sub(one, text)

    def between(self, text):
        """The text with all but quoted text turned; comments turn as prose."""
        out, at = [], 0
        for m in QUIET.finditer(text):
            out.append(self.code(text[at : m.start()]))
            out.append(m[0] if m[0].startswith('"') else self.prose(m[0]))
            at = m.end()
        return "".join(out) + self.code(text[at:])

    def prose(self, text):
        # A dash joins words of prose as well: only a code span, and a word with a capital inside, is a name there.
        text = re.sub(r"\x60[^\x60\n]+\x60", lambda m: self.code(m[0]), text)
        return WORD.sub(lambda m: self.table.get(m[0], m[0]) if re.search(r"[a-z][A-Z]", m[0]) else m[0], text)

    def source(self, text):
        """Clauses, 'ghost use' lines and comments of a .rt file."""
        out = []
        for line in text.split("\n"):
            if re.match(r"\s*//", line):
                out.append(self.prose(line))
            else:
                # Code has no name with a dash or a capital behind a small letter, so only clauses and 'ghost use' lines turn.
                out.append(self.code(line))
        return "\n".join(out)


def main():
    check = "--check" in sys.argv
    names, fields, made = declared()
    library = imported()
    table = {n: snake(n) for n in names - made if turns(n) and n not in library}
    fell = collections.defaultdict(set)
    for old, new in table.items():
        fell[new].add(old)
    for new, olds in list(fell.items()):
        lemmas = [o for o in olds if "-" in o and not o[0].isupper()]
        if len(olds) == 2 and len(lemmas) == 1:
            table[lemmas[0]] = new + "_lem"
        elif len(olds) == 2 and len(lemmas) == 2:
            table[sorted(lemmas, key=lambda o: o.count("-"))[-1]] = new + "_lem"
    fell = collections.defaultdict(set)
    for old, new in table.items():
        fell[new].add(old)
    clash = {n: sorted(o) for n, o in fell.items() if len(o) > 1}
    where = collections.defaultdict(set)
    for path in texts((".antt", ".rt")):
        code = QUIET.sub("", read(path))
        if path.endswith(".rt"):
            # A function may have a definition's name; a parameter or a local would hide it.
            here = set(WORD.findall(code)) - set(re.findall(r"fn (\w+)", code)) | set(re.findall(r"(?:\blet (?:mut )?|[(,]\s*|^\s+)(\w+): [^:]", code, re.M))
            here -= set(re.findall(r"ensures (\w+)", code))
        else:
            words = [m for m in WORD.finditer(re.sub(r"Rattle\.[^\s(){};,]*", "", code))]
            here = {m[0] for m in words if m.start() == 0 or m.string[m.start() - 1] != "."} | {m[0] for m in words if m[0] in table}
        for old in here & table.keys():
            if table[old] in here:
                where[old].add(path)
    if check:
        print(len(table), "names turn;", "from a library too:", sorted(n for n in names if turns(n) and n in library))
        for n, o in sorted(clash.items()):
            print("fall together:", n, o)
        for old, paths in sorted(where.items()):
            print("the new spelling is there:", old, table[old], sorted(paths)[:4], len(paths))
        return
    turner = Turner(table, fields)
    for path in texts((".antt", ".rt", ".edit", ".md")):
        text = read(path)
        if path.endswith(".antt"):
            new = turner.between(text)
        elif path.endswith(".rt"):
            new = turner.source(text)
        elif path.endswith(".edit"):
            new = "\n".join(turner.prose(l) if l.startswith("#") else turner.code(l) for l in text.split("\n"))
        else:
            new = re.sub(r"\x60[^\x60\n]+\x60", lambda m: turner.code(m[0]), text)
            # port.py turned some names already.
            old = lambda m: snake(m[0]) if turns(m[0]) and m[0] not in names and snake(m[0]) in names else m[0]
            new = re.sub(r"\x60[^\x60\n]+\x60", lambda m: WORD.sub(old, m[0]), new)
        if new != text:
            with open(path, "w", encoding="utf-8") as f:
                f.write(new)
    print(len(table), "names,", turner.count, "places")


main()
