#!/usr/bin/env python3
"""Spells the repository's own definitions and lemmas as Rattle's library does: snake case, and camel case for types and facts.

usage: python3 tools/spell.py [FOLDER]      rewrites the .rt and .antt files below FOLDER/crates in place; run once, after port.py

What is renamed is read off the .antt files: each name that they declare with a dash or an inner capital, but for the answers to a function's goals.
In .rt files only clauses and `ghost use` lines are touched. A name that would fall together with another is reported, and kept.
"""
import os
import re
import sys

WORD = r"[^\s(){}\[\];,.:=λ→⌜⌝∷·`\"|&+*<>≤≡≢×∙◌@/%]+"
HEAD = re.compile(r"^(\s*)(?:(?:abbrev|unfoldable|pub|ruleset)\s+)*(data\s+|record\s+)?(" + WORD + r")\s*(?:\([^)]*\)\s*|\{[^}]*\}\s*)*:( .*)?$")
TOKEN = re.compile(WORD)
CLAUSE = re.compile(r"^\s*(ghost\b|requires\b|ensures\b|pub trait|where\b)|\{ .* \}\s*;?$")


def files(root, ending):
    for folder, dirs, names in os.walk(os.path.join(root, "crates")):
        dirs[:] = sorted(d for d in dirs if d != "out")
        for n in sorted(names):
            if n.endswith(ending):
                yield os.path.join(folder, n)


def spelled(name):
    if name[0].isupper():
        return "".join(part[:1].upper() + part[1:] for part in name.split("-"))
    snake = re.sub(r"(?<=[a-z0-9])([A-Z])", lambda m: "_" + m.group(1).lower(), name)
    return snake.replace("-", "_")


def declared(root):
    """The names declared in .antt files, and those imported from the library."""
    own, other = set(), set()
    for path in files(root, ".antt"):
        for line in open(path, encoding="utf-8"):
            m = HEAD.match(line)
            if m and not re.match(r" (goal|given|need|rule)\.", m.group(4) or ""):
                own.add(m.group(3))
            m = re.match(r"use (Rattle\.(?:std|core)\S*|borrow\S*|denote\S*|Prim\S*|mathlib\S*)\.\{(.*)\}", line)
            if m:
                other |= {w.strip().split(" as ")[-1] for w in m.group(2).split(",")}
    return own, other


def renames(own, other):
    turned = {}
    for name in sorted(own):
        new = spelled(name)
        if new == name or name in other or not re.match(r"^[A-Za-zμ]", name):
            continue
        if new in own or new in other or new in turned.values():
            print(f"kept: {name}: {new} is taken")
            continue
        turned[name] = new
    return turned


def line_turned(line, turned, own):
    def one(m):
        word = m.group(0)
        before = line[: m.start()]
        if word not in turned and before.endswith(".") and spelled(word) in own:
            return spelled(word)
        if word not in turned or re.search(r"(^|[^\w.])(c|goal|given|need)\.$", before):
            return word
        return turned[word]

    if re.match(r"\s*--", line) or re.match(r"use (borrow|denote|Prim|mathlib)", line):
        return line
    return TOKEN.sub(one, line)


def main(root):
    own, other = declared(root)
    turned = renames(own, other)
    for path in list(files(root, ".antt")) + list(files(root, ".rt")):
        with open(path, encoding="utf-8") as f:
            old = f.read()
        lines = old.split("\n")
        for i, line in enumerate(lines):
            if path.endswith(".rt") and not CLAUSE.search(line):
                continue
            code, mark, comment = line, "", ""
            at = line.find("// ") if path.endswith(".rt") else line.find("-- ")
            if at >= 0:
                code, comment = line[:at], line[at:]
            lines[i] = line_turned(code, turned, own) + comment
        new = "\n".join(lines)
        if path.endswith(".antt"):
            new = re.sub(r"\bin-(ok|err|default)\b(?=[-.\s)]|$)", r"in_\1", new)
        if new != old:
            with open(path, "w", encoding="utf-8") as f:
                f.write(new)
    print(f"spelled: {len(turned)} names")


if __name__ == "__main__":
    main(sys.argv[1] if len(sys.argv) > 1 else ".")
