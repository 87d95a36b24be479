#!/usr/bin/env python3
"""Counts the places in crates/*/src that docs/DESIGN-PASS.md speaks of, point by point, and lists them.

usage: python3 tools/places.py [--list]        at the top of the repository

A place is what a pattern finds; whether it is to be changed or stays for a reason is said in the page. Tests (from `#[cfg(test)]` on) are left out.
"""

import collections
import glob
import re
import sys

KEYWORDS = set("as break const continue else enum fn for if impl in let loop match mod mut pub ref return self Self static struct trait true false type use where while matches Some None Ok Err".split())
TOKEN = re.compile(r"b?'(?:\\.|[^'\\])'|b?\"(?:\\.|[^\"\\])*\"|[A-Za-z_][A-Za-z0-9_]*|[0-9][0-9_a-zA-Z]*|\S")


def sources():
    for path in sorted(glob.glob("crates/*/src/**/*.rt", recursive=True)):
        with open(path, encoding="utf-8") as f:
            text = f.read()
        text = text.split("#[cfg(test)]")[0]
        yield path, "\n".join("" if line.lstrip().startswith("//") else line for line in text.split("\n"))


def line_of(text, at):
    return text.count("\n", 0, at) + 1


def block(text, at):
    """What stands between the brackets that open at `at`."""
    depth, i = 0, at
    while i < len(text):
        if text[i] == "{":
            depth += 1
        elif text[i] == "}":
            depth -= 1
            if depth == 0:
                return text[at + 1:i]
        i += 1
    return text[at + 1:]


class Function:
    def __init__(self, path, line, name, head, clauses, body):
        self.path, self.line, self.name, self.head, self.clauses, self.body = path, line, name, head, clauses, body
        self.crate = path.split("/")[1]

    def parameters(self):
        inner = self.head[self.head.index("(") + 1:]
        depth, parts, cut = 0, [""], False
        for c in inner:
            if c in "(<[":
                depth += 1
            elif c in ")>]":
                if depth == 0:
                    break
                depth -= 1
            if c == "," and depth == 0:
                parts.append("")
            else:
                parts[-1] += c
        return [re.sub(r"\s+", " ", p).strip() for p in parts if ":" in p]


def functions():
    for path, text in sources():
        for m in re.finditer(r"^[ ]*(?:pub )?(?:const )?fn ([a-z_0-9]+)", text, re.M):
            rest = text[m.start():]
            # the head ends where a clause or the body begins
            cut = re.search(r"\n *(?:requires|ensures|where)\b|[^\S\n]*\{\}?\n|\{\}|;\n", rest)
            head = rest[:cut.start()] if cut else rest
            clauses = re.findall(r"^ *(requires|ensures)(?: ([a-z_0-9]+))? (\{.*\})$", rest[: rest.find("\n{") if "\n{" in rest else len(rest)], re.M)
            start = re.search(r"^ *\{(?:\}|$)|[^\S\n]\{$", rest, re.M)
            if not start:
                continue
            body = block(rest, rest.index("{", start.start()))
            here = rest[: start.start()]
            clauses = re.findall(r"^ *(requires|ensures)(?: ([a-z_0-9]+))? (\{.*\})$", here, re.M)
            yield Function(path, line_of(text, m.start()), m.group(1), head, clauses, body)


def shape(body):
    """The tokens of a body with names numbered as they first come, and literals blotted out."""
    known, out = {}, []
    for t in TOKEN.findall(body):
        if t[0].isdigit() or t[0] in "\"'" or t.startswith(("b'", 'b"')):
            out.append("#")
        elif (t[0].isalpha() or t[0] == "_") and t not in KEYWORDS:
            out.append("n%d" % known.setdefault(t, len(known)))
        else:
            out.append(t)
    return tuple(out)


def enums():
    for path, text in sources():
        for m in re.finditer(r"^(?:pub )?enum ([A-Za-z]+)[^{\n]*\{", text, re.M):
            body = block(text, m.end() - 1)
            variants = re.findall(r"^ {4}([A-Z][A-Za-z0-9]*)(\([^\n]*\)| \{[^\n]*\})?,?$", body, re.M)
            yield path, line_of(text, m.start()), m.group(1), variants


def structs():
    for path, text in sources():
        for m in re.finditer(r"^(?:pub )?struct ([A-Za-z]+)[^{;\n]*\{", text, re.M):
            body = block(text, m.end() - 1)
            yield path, line_of(text, m.start()), m.group(1), re.findall(r"^ *(?:pub )?([a-z_0-9]+): ([^{\n]+?),?$", body, re.M)


def point_1(fns):
    for path, line, name, variants in enums():
        kinds = ["unit" if not v else "value" for _, v in variants]
        if sorted(kinds) in (["unit", "value"], ["value", "value"]) and len(variants) == 2:
            yield path, line, "enum of two, shaped like Option or Result: " + name
    for f in fns:
        if f.body.strip() == "0" and "->" in f.head:
            yield f.path, f.line, "answers a number that means nothing: " + f.name
        elif re.search(r"-> u(8|16)\b", f.head) and re.search(r"=> \d", f.body):
            yield f.path, f.line, "a number for each kind: " + f.name
        for p in f.parameters():
            if re.fullmatch(r"(kind|code|tag|flag|which|mode|sort): (u8|u16|u32|usize|bool)", p):
                yield f.path, f.line, "a number for a kind handed over: " + f.name
        if re.search(r"-> (Result|Option)<.*\((Source|[A-Z]\w*), [A-Z]\w*\)>", f.head):
            yield f.path, f.line, "a pair in place of an error: " + f.name


def point_2(fns):
    by = collections.defaultdict(list)
    for f in fns:
        tokens = shape(f.body)
        if len(tokens) >= 24:
            by[tokens].append(f)
    for group in by.values():
        if len(group) > 1:
            for f in group:
                yield f.path, f.line, "same shape as %s: %s" % (", ".join(sorted({g.crate + "::" + g.name for g in group if g is not f} or {"another " + f.name})), f.name)
    types = collections.defaultdict(list)
    for path, line, name, variants in enums():
        types[name].append((path, line))
        types["variants " + " ".join(sorted(v for v, _ in variants))].append((path, line))
    for path, line, name, fields in structs():
        types[name].append((path, line))
        types["fields " + " ".join(f for f, _ in fields)].append((path, line))
    seen = set()
    for name, places in sorted(types.items()):
        if len(places) > 1:
            for place in places:
                if place not in seen:
                    seen.add(place)
                    yield place[0], place[1], "type of the same name or make: " + name


def point_3():
    for path, text in sources():
        for i, line in enumerate(text.split("\n"), 1):
            if re.search(r"\bwhile (?!let)|\bloop \{|\bfor (_[a-z]*|[a-z]+) in \(?[0-9a-z_.]+\.\.|\bwhile let\b", line):
                yield path, i, line.strip()


def point_4(fns):
    for f in fns:
        name, head = f.name, f.head
        if re.match(r"same|equal|agree", name) and "-> bool" in head:
            yield f.path, f.line, "equality: " + name
        elif re.search(r"\bmatch \w+(\.\w+)* \{", f.body) and name not in ("number", "place") and "&mut" not in head \
                and re.fullmatch(r"\s*match [\w.]+ \{(?:\s*[A-Z]\w*::\w+(?:\([^()]*\))?(?: \| [A-Z]\w*::\w+(?:\([^()]*\))?)* => (?:Some\()?(?:[A-Z]\w*::)*[\w\"#< >=.\\/(),]+\)?,|\s*_ => \w+,)+\s*\}\s*", f.body):
            yield f.path, f.line, "conversion: " + name
        elif re.search(r"page: &mut Page|&mut self\b.*more: &", head) or (f.crate == "texts" and "&mut self" in head and "AllocError" in head):
            yield f.path, f.line, "printing: " + name


def point_5(fns):
    clauses = collections.defaultdict(list)
    for f in fns:
        for kind, _, text in f.clauses:
            if kind == "requires":
                clauses[f.crate, text].append(f)
    for (crate, text), users in sorted(clauses.items()):
        if len(users) >= 3:
            yield users[0].path, users[0].line, "required by %d functions: %s" % (len(users), text)
    pairs = collections.defaultdict(list)
    for f in fns:
        ps = sorted(p for p in f.parameters() if not p.startswith(("heap:", "out:")))
        for i, p in enumerate(ps):
            for q in ps[i + 1:]:
                pairs[f.crate, p, q].append(f)
    for (crate, p, q), users in sorted(pairs.items()):
        if len(users) >= 3:
            yield users[0].path, users[0].line, "travel together in %d functions: %s, %s" % (len(users), p, q)


def point_6():
    for path, line, name, fields in structs():
        kinds = [t for _, t in fields]
        if any(re.match(r"\[", t) for t in kinds):
            yield path, line, "array kept in " + name
        if sum(t.startswith("Vec<") for t in kinds) > 1:
            yield path, line, "several Vecs in " + name
        if any(f in ("list", "stack", "queue") and "Vec" in t for f, t in fields):
            yield path, line, "list with a limit: " + name
        if any(t in ("Span", "u16") for t in kinds) and "Span" in kinds:
            yield path, line, "places in a table: " + name
    for path, text in sources():
        for m in re.finditer(r"\[0u8; \d+\]", text):
            yield path, line_of(text, m.start()), "buffer: " + m.group(0)


def point_7(fns):
    for f in fns:
        for m in re.finditer(r"\bmatch (part|class|width|kind|order|which) \{", f.body):
            yield f.path, f.line, "a switch on %s: %s" % (m.group(1), f.name)
        if re.search(r"\bself\b", f.head) and re.search(r"match self \{", f.body) and "Width" in f.path:
            yield f.path, f.line, f.name


def point_8():
    goals = lines = 0
    for path in glob.glob("crates/*/proofs/**/*.antt", recursive=True):
        with open(path, encoding="utf-8") as f:
            text = f.read()
        lines += text.count("\n")
        goals += len(re.findall(r"^pub [\w-]+ : goal\.", text, re.M))
    return goals, lines


def main():
    listed = "--list" in sys.argv
    fns = list(functions())
    points = [point_1(fns), point_2(fns), point_3(), point_4(fns), point_5(fns), point_6(), point_7(fns)]
    for number, places in enumerate(points, 1):
        places = list(places)
        print("point %d: %d places" % (number, len(places)))
        if listed:
            for path, line, what in places:
                print("  %s:%d: %s" % (path, line, what))
    goals, lines = point_8()
    print("point 8: %d goals answered, %d lines of proofs" % (goals, lines))
    print("functions: %d" % len(fns))


main()
