#!/usr/bin/env python3
"""Respells the definitions, lemmas and record fields of specs/ and proofs/ in snake case, wherever they are cited.

usage: python3 tools/respell_names.py [--list]     at the top of the repository

A name counts if this repository declares it, begins with a small letter, and has a capital or a dash: monthLength
becomes month_length, and floor-is becomes floor_is; a lemma that would then have its definition's name gets _lem. Types,
modules and names made for goals keep their spelling; so do Rust's own names, strings and comments. A file that has both
an old name and its new one is told, to be looked at.
"""

import os
import re
import sys

LETTER = r"[\w'\-\u00b7\u2124\u2115]"
NAME = re.compile(rf"(?<![\w'\-\u00b7\u2124\u2115]){LETTER}+")
DECLARED = re.compile(r"^\s*(?:(?:pub|abbrev|unfoldable)\s+)*([a-z][\w'\-]*)\s*:\s*(.*)$")
FIELD = re.compile(r"^\s+pub ([a-z][\w'\-]*)\s*:")


def files(ending):
    for folder, dirs, names in os.walk("crates"):
        dirs[:] = sorted(d for d in dirs if d not in ("out", "src") or (d == "src" and ending == ".rt"))
        for name in sorted(names):
            if name.endswith(ending):
                yield os.path.join(folder, name)


def snake(name):
    name = re.sub(r"(?<=[a-z0-9])([A-Z])", lambda m: "_" + m.group(1).lower(), name)
    return name.replace("-", "_")


def spelled(names):
    """Old names with their new ones. A lemma that would have its definition's name gets _lem."""
    definitions = {snake(name) for name in names if "-" not in name}
    return {name: snake(name) + ("_lem" if "-" in name and snake(name) in definitions else "") for name in names}


def declared():
    """The names that are declared, and among them the record fields."""
    names, fields = {}, set()
    for path in files(".antt"):
        with open(path, encoding="utf-8") as f:
            for line in f:
                m = DECLARED.match(line)
                if not m or m.group(2).startswith("goal."):
                    continue
                name = m.group(1)
                if snake(name) != name:
                    names.setdefault(name, set()).add(path)
                    if FIELD.match(line):
                        fields.add(name)
    return names, fields


def parts(path, text):
    """The text, cut so that comments and strings stand alone: pairs of (is code, piece)."""
    cut = r"(--[^\n]*)" if path.endswith(".antt") else r"(//[^\n]*|b?\"(?:\\.|[^\"\\])*\"|b?'(?:\\.|[^'\\])')"
    if path.endswith(".antt"):
        cut = r"((?m:^\s*--[^\n]*)|(?<=\s)--\s[^\n]*)"
    at = 0
    for m in re.finditer(cut, text):
        yield True, text[at : m.start()]
        yield False, m.group()
        at = m.end()
    yield True, text[at:]


def turned(spelling, fields, path, text):
    def one(m):
        word = m.group()
        if word not in spelling:
            return word
        if text_before(m).endswith(".") and word not in fields and "-" in word:
            return word
        return spelling[word]

    def text_before(m):
        return m.string[max(0, m.start() - 1) : m.start()]

    return "".join(NAME.sub(one, piece) if code else piece for code, piece in parts(path, text))


def main():
    names, fields = declared()
    spelling = spelled(names)
    if "--list" in sys.argv[1:]:
        for name in sorted(names):
            print(name, "->", spelling[name], " ".join(sorted(names[name])))
        return
    taken = {}
    for path in [*files(".antt"), *files(".rt")]:
        with open(path, encoding="utf-8") as f:
            text = f.read()
        code = "".join(piece for is_code, piece in parts(path, text) if is_code)
        words = set(NAME.findall(code))
        for name in names:
            if name in words and spelling[name] in words:
                taken.setdefault((name, spelling[name]), []).append(path)
    for (old, new), paths in sorted(taken.items()):
        print(f"look: {old} becomes {new}, which stands there too: {' '.join(paths)}")
    n = 0
    for path in [*files(".antt"), *files(".rt")]:
        with open(path, encoding="utf-8") as f:
            text = f.read()
        new = turned(spelling, fields, path, text)
        if new != text:
            with open(path, "w", encoding="utf-8") as f:
                f.write(new)
            n += 1
    print(f"{len(names)} names respelled in {n} files")


main()
