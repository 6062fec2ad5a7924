#!/usr/bin/env python3
"""Where the sources say a thing twice.

    tools/twins.py [FOLDER]          items of src/ that are alike but for names, types and constants
    tools/twins.py --facts [FOLDER]  facts that stand in the contracts of three or more functions of a crate

Two items are alike if their text is the same once each name is read as one word and each number as
one number; contracts and comments do not count. A fact is a capital word of a clause; what only says
how a result is split (MatchResult and the like) is none.
"""
import collections
import pathlib
import re
import sys

WORDS = set(
    "as break const continue crate dyn else enum fn for if impl in let loop match move mut pub ref return self Self "
    "struct super trait type use where while None Some Ok Err Option Result".split()
)
SPLITS = {"MatchResult", "MatchOption", "Results", "Decides", "IfOk", "Type"}
HEAD = re.compile(r"^ *(?:pub(?:\([a-z]+\))? )?(fn|impl|struct|enum|trait)\b([^\n]*)", re.M)
CLAUSE = re.compile(r"^\s*(?:requires|ensures)\b[^{]*\{(.*)\}")


def sources(root):
    for path in sorted(root.glob("crates/*/src/**/*.rt")):
        if path.name != "tests.rt":
            yield path, path.read_text()


def item(text, start):
    """The text of an item, from its head to the brace or the semicolon that ends it."""
    depth = 0
    for i in range(start, len(text)):
        if text[i] == "{":
            depth += 1
        elif text[i] == "}":
            depth -= 1
            more = re.match(r"\s*(?:ensures|requires|\{)", text[i + 1 :])
            if depth == 0 and not more and text[i + 1 : i + 2] in ("\n", ""):
                return text[start : i + 1]
        elif text[i] == ";" and depth == 0:
            return text[start : i + 1]
    return text[start:]


def shape(text):
    text = re.sub(r"//[^\n]*|^ *(?:ensures|requires)[^\n]*", "", text, flags=re.M)
    text = re.sub(r"b?\"[^\"]*\"|b?'[^'\n]'", '"', text)
    tokens = re.findall(r"[A-Za-z_][A-Za-z_0-9]*|[0-9][0-9_]*|\S", text)
    return " ".join(t if t in WORDS or not re.match(r"\w", t) else "0" if t[0].isdigit() else "a" for t in tokens)


def twins(root):
    groups = collections.defaultdict(list)
    for path, text in sources(root):
        for head in HEAD.finditer(text):
            line = text.count("\n", 0, head.start(1)) + 1
            name = " ".join((head.group(1) + head.group(2)).split()).rstrip("{ ")
            groups[shape(item(text, head.start()))].append(f"{path.relative_to(root)}:{line} {name}")
    found = [places for places in groups.values() if len(places) > 1]
    for number, places in enumerate(found, 1):
        print(f"{number}. alike:")
        print("".join(f"   {place}\n" for place in places), end="")
    print(f"{len(found)} groups, {sum(map(len, found))} items")


def facts(root):
    places = collections.defaultdict(set)
    for path, text in sources(root):
        name = None
        for line in text.splitlines():
            head = re.search(r"\bfn ([a-z_0-9]+)", line)
            name = head.group(1) if head else name
            clause = CLAUSE.match(line)
            for word in re.findall(r"(?<![.\w])[A-Z][A-Za-z]+", clause.group(1)) if clause else []:
                if word not in SPLITS:
                    places[path.parts[path.parts.index("crates") + 1], word].add(name)
    found = {key: names for key, names in sorted(places.items()) if len(names) > 2}
    for (crate, word), names in found.items():
        print(f"{crate}: {word}: {' '.join(sorted(names))}")
    print(f"{len(found)} facts")


def main():
    words = sys.argv[1:]
    look = facts if "--facts" in words else twins
    folders = [word for word in words if word != "--facts"]
    look(pathlib.Path(folders[0] if folders else "."))


main()
