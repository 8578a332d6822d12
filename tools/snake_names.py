#!/usr/bin/env python3
"""Respells the repository's own definitions, lemmas and fields in snake case, after port.py.

usage: snake_names.py map ROOT       writes tools/snake_names.txt from the names that ROOT declares: "old new", a line each. Four
                                     names that only the landed commit declares were added by hand
       snake_names.py apply ROOT     respells .rt, .antt and .edit files below ROOT/crates, and what stands between backticks
                                     in README.md and docs/

A name of a function of src/ keeps its spelling, and so does what a function's own proof (proofs/F/) declares: that goes by the
names of its goals. A lemma that would get the name of a definition, or of another lemma beside it, gets _lem.
"""
import collections
import os
import re
import sys

TABLE = os.path.join(os.path.dirname(os.path.realpath(__file__)), "snake_names.txt")
SIGNATURE = re.compile(r"^\s*(?:(?:pub|abbrev|unfoldable|pattern) )*([^\s(){}\[\].,;:]+)((?: [^\s(){}\[\].,;:=]+)*)(?: \{[^}]*\})? :(?: |$)")
# where the plain spelling is another name's already
CHOSEN = {"aboveZero": "is_above_zero", "metBy": "met_by", "openingOf": "opening_of", "rowNext": "row_next", "shownBy": "is_shown_by",
          "chart-read": "chart_count", "rule-read": "rule_count", "rule-room": "rule_room"}
PLAIN = re.compile(r"^[a-z][\w'-]*$")
TOKEN = re.compile(r"[A-Za-z_][\w'-]*")


def files(root, endings):
    for folder, below, names in os.walk(os.path.join(root, "crates")):
        below[:] = sorted(d for d in below if d != "out")
        for name in sorted(names):
            if name.endswith(endings):
                yield os.path.join(folder, name)


def of_function(path):
    parts = path.split(os.sep)
    at = parts.index("crates")
    return len(parts) > at + 4 and parts[at + 2] == "proofs"


def snake(name):
    return re.sub(r"([a-z0-9])([A-Z])", lambda m: m.group(1) + "_" + m.group(2).lower(), name).replace("-", "_")


def declared(root):
    names = collections.defaultdict(set)
    for path in files(root, ".antt"):
        if of_function(path):
            continue
        for line in open(path, encoding="utf-8"):
            m = SIGNATURE.match(line)
            if m and not line.lstrip().startswith("--"):
                for name in [m.group(1), *m.group(2).split()]:
                    names[name].add(path)
    return names


def make(root):
    names = declared(root)
    old = [n for n in names if PLAIN.match(n) and snake(n) != n]
    taken = {n for n in names if snake(n) == n}
    table = {}
    for n in sorted(old, key=lambda n: ("-" in n, n)):
        new = CHOSEN.get(n, snake(n))
        if n not in CHOSEN and (new in taken or new in table.values()):
            new += "_lem"
        assert n in CHOSEN or (new not in taken and new not in table.values()), n
        table[n] = new
    if not table:
        sys.exit("nothing here is to be respelled: the table stays as it is")
    with open(TABLE, "w", encoding="utf-8") as out:
        out.writelines(f"{a} {b}\n" for a, b in sorted(table.items()))


def turned(text, table, skip):
    return TOKEN.sub(lambda m: table.get(m.group(0), m.group(0)) if m.group(0) not in skip else m.group(0), text)


def respell(path, table):
    text = open(path, encoding="utf-8").read()
    skip = set()
    if path.endswith(".antt") and of_function(path):
        skip = {m.group(1) for m in map(SIGNATURE.match, text.split("\n")) if m}
    words = {a: b for a, b in table.items() if "-" not in a}
    lines = []
    for line in text.split("\n"):
        mark = "--" if path.endswith(".antt") else "//"
        stands = line.lstrip().startswith(mark)
        lines.append(turned(line, words if stands else table, skip))
    new = "\n".join(lines)
    if new != text:
        open(path, "w", encoding="utf-8").write(new)


def pages(root, table):
    docs = [os.path.join(root, "README.md")]
    for folder, _, names in os.walk(os.path.join(root, "docs")):
        docs += [os.path.join(folder, n) for n in names if n.endswith(".md")]
    for path in docs:
        text = open(path, encoding="utf-8").read()
        new = re.sub(r"`[^`\n]+`", lambda m: turned(m.group(0), table, set()), text)
        if new != text:
            open(path, "w", encoding="utf-8").write(new)


def main(argv):
    if argv[0] == "map":
        make(argv[1])
        return
    table = dict(line.split() for line in open(TABLE, encoding="utf-8"))
    for path in files(argv[1], (".rt", ".antt", ".edit")):
        respell(path, table)
    pages(argv[1], table)


if __name__ == "__main__":
    main(sys.argv[1:])
