#!/usr/bin/env python3
"""Respells the names of this repository's definitions and lemmas: a dash becomes an underscore, and a fact's or type's name is in upper camel case.

usage: python3 tools/respell.py        at the top of the repository, once, after the kit's port.py

Names that Rattle makes (of goals, loops, steps and branches) keep their dashes, and so do std's. Functions of src/, strings, inputs and outputs are not touched.
Names that would fall together with another are listed below with what stands for them.
"""

import collections
import os
import re
import sys

# A plain respelling would give these the name of a function beside them, or of a word of std.
OTHERWISE = {
    "same-predicate": "predicates_agree",
    "starts-at": "begins_at",
    "starts-after": "begins_after",
    "guard-from": "guard_ahead_from",
    "line-start": "start_of_line",
    "bit-and": "bit_of_and",
}

TOKEN = re.compile(r"[^\s(){}\[\].,;:|\"⌜⌝]+")
LITERAL = re.compile(r'"(?:\\.|[^"\\])*"|b?\'(?:\\.|[^\'\\])\'')
TOP = re.compile(r"^(?:abbrev |unfoldable |pub |data |record |ruleset )*([^\s(){}:;,=|\"]+) .*?:(?: |$)")
MEMBER = re.compile(r"^  (?:pub )*([^\s(){}:;,=|\"]+) : ")
WITHIN = re.compile(r"^ +(?:abbrev |unfoldable |pub |data |record )*([^\s(){}:;,=|\"]+) .*?:(?: |$)")
QUOTED = re.compile(r"`[^`\n]*`")


def files(*ends):
    for folder, dirs, names in os.walk("crates"):
        dirs[:] = sorted(d for d in dirs if d != "out")
        for name in sorted(names):
            if name.endswith(ends):
                yield os.path.join(folder, name)


def read(path):
    with open(path, encoding="utf-8") as f:
        return f.read()


def spelled(name):
    if name in OTHERWISE:
        return OTHERWISE[name]
    if name[0].isupper():
        return "".join(part[:1].upper() + part[1:] for part in name.split("-"))
    return name.replace("-", "_")


def own_names():
    own, made = set(), set()
    for path in files(".antt"):
        text = read(path)
        for m in re.finditer(r"goal\.([^\s(){}\[\].,;:|]+)", text):
            made.add(m.group(1))
        for m in re.finditer(r"^use Rattle\.std[^\n{]*\{([^}]*)\}", text, re.M):
            made.update(n.strip().split(" as ")[0] for n in m.group(1).split(","))
        module = False
        for line in text.split("\n"):
            if line and not line.startswith(" "):
                module = line.startswith("module ")
            m = TOP.match(line) or MEMBER.match(line) or (WITHIN.match(line) if module else None)
            if m and "-" in m.group(1) and not m.group(1).startswith("-"):
                own.add(m.group(1))
    return own - made


def turned(text, names):
    def new(m):
        # behind a dot such a name is a step's, which follows the function
        if m.group(0) in OTHERWISE and text[m.start() - 1 : m.start()] == ".":
            return m.group(0)
        return names.get(m.group(0), m.group(0))

    return TOKEN.sub(new, text)


def turned_code(text, names):
    out, at = [], 0
    for m in LITERAL.finditer(text):
        out += [turned(text[at : m.start()], names), m.group(0)]
        at = m.end()
    return "".join(out) + turned(text[at:], names)


def main():
    names = {n: spelled(n) for n in own_names()}
    together = collections.defaultdict(set)
    for old, new in names.items():
        together[new].add(old)
    clash = {k: v for k, v in together.items() if len(v) > 1}
    if clash:
        sys.exit(f"names fall together: {clash}")
    for path in files(".antt", ".rt", ".edit"):
        before = read(path)
        after = turned(before, names) if path.endswith(".antt") else turned_code(before, names)
        if after != before:
            with open(path, "w", encoding="utf-8") as f:
                f.write(after)
    pages = ["README.md"] + [os.path.join("docs", p) for p in sorted(os.listdir("docs")) if p.endswith(".md")]
    for path in pages:
        before = read(path)
        after = QUOTED.sub(lambda m: "`" + turned(m.group(0)[1:-1], names) + "`", before)
        if after != before:
            with open(path, "w", encoding="utf-8") as f:
                f.write(after)
    print(f"{len(names)} names respelled")


main()
