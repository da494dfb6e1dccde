#!/usr/bin/env python3
"""Brings the repository's own definitions, laws, fields and constructors to the spelling of today's Rattle.

usage: python3 tools/respell.py        at the top of the repository, once, after port.py

Words and fields are in snake case; a dash joins two names in a law, and a plain word is added with an underscore; a law
that would have its word's name ends in _lem, a field that would have it in _holds. The table is tools/respell.tsv, one
old and one new name a line. Comments and pages change only where a name can be nothing else.
"""
import os
import re
import sys

HERE = os.path.dirname(os.path.realpath(__file__))
TOKEN = re.compile(r"[\w'·-]+")
QUOTED = re.compile(r"`[^`\n]+`")


def table():
    with open(os.path.join(HERE, "respell.tsv"), encoding="utf-8") as f:
        return dict(line.rstrip("\n").split("\t") for line in f)


def turned(names, text, walk, fields):
    def one(m):
        new = names.get(m.group(0))
        if new is None:
            return m.group(0)
        # In a proof that walks the code, what stands behind a dot is Rattle's own name.
        if walk and m.start() and text[m.start() - 1] == "." and m.group(0) not in fields:
            return m.group(0)
        return new

    return TOKEN.sub(one, text)


def comment(names, text):
    plain = {o: n for o, n in names.items() if "-" not in o and re.search("[a-z0-9][A-Z]", o)}
    text = QUOTED.sub(lambda m: turned(names, m.group(0), False, ()), text)
    return turned(plain, text, False, ())


def source(names, text, mark, walk, fields):
    lines = []
    for line in text.split("\n"):
        at = line.find(mark)
        if at >= 0 and (at == 0 or line[at - 1] == " "):
            lines.append(turned(names, line[:at], walk, fields) + comment(names, line[at:]))
        else:
            lines.append(turned(names, line, walk, fields))
    return "\n".join(lines)


def page(names, text):
    return QUOTED.sub(lambda m: turned(names, m.group(0), False, ()), text)


def fields_of(root):
    """Every field of a record: behind a dot in a walk, these are ours."""
    found = set()
    for folder, _, files in os.walk(os.path.join(root, "crates")):
        for name in files:
            if name.endswith(".antt") and os.sep + "out" + os.sep not in folder:
                with open(os.path.join(folder, name), encoding="utf-8") as f:
                    found.update(re.findall(r"(?m)^\s+(?:pub )?([\w'-]+) :", f.read()))
    return found


def main():
    root = os.getcwd()
    if not os.path.isdir(os.path.join(root, "crates")):
        sys.exit("run it at the top of the repository")
    names = table()
    fields = fields_of(root)
    for folder, dirs, files in os.walk(root):
        dirs[:] = [d for d in dirs if d not in ("out", ".git", "target")]
        for name in files:
            path = os.path.join(folder, name)
            rel = os.path.relpath(path, root)
            with open(path, encoding="utf-8", errors="surrogateescape") as f:
                old = f.read()
            if rel.startswith("crates" + os.sep) and name.endswith(".antt"):
                new = source(names, old, "--", name == "Proof.antt", fields)
            elif rel.startswith("crates" + os.sep) and name.endswith(".rt"):
                new = source(names, old, "//", False, fields)
            elif rel.startswith("crates" + os.sep) and name.endswith(".edit"):
                new = turned(names, old, False, fields)
            elif name == "README.md" or rel.startswith("docs" + os.sep) and name.endswith(".md") and name != "PORT.md":
                new = page(names, old)
            else:
                continue
            if new != old:
                with open(path, "w", encoding="utf-8", errors="surrogateescape") as f:
                    f.write(new)


main()
