#!/usr/bin/env python3
"""Gives the definitions and lemmas of this repository the spelling of today's Rattle: words in snake case.

usage: python3 tools/respell.py           at the top of the repository, once, after the kit's own port script
       python3 tools/respell.py --pages   the same names in README.md, docs/ and include/ (in backticks alone)

What is turned:
- a name of a definition, a law or a field in .antt files that is written in lower camel case: `regionOf` to `region_of`;
- a name that is joined by dashes, if a file of specs/ declares it or if it is a field or a constructor: `all-used` to `all_used`
  (any other law of proofs/ keeps its dashes: they join names, as in the library);
- the modules specs/Contracts.antt are called specs/Clauses.antt, since the kit makes a module of the other name.
Where two names would fall together the table BY_HAND says what each is called. Functions of src/, exports, strings, inputs and
outputs keep their names: in a .rt file only what the table of old names has is turned, and none of those is a name of the code.
The table is tools/respelled.tsv (old, new); with no such file it is made from the files as they stand.
"""

import collections
import os
import re
import sys

TABLE = "tools/respelled.tsv"

# Names that would fall together with another one (a law with the definition that it is about, a field with a definition that a
# later field names), and what they are called.
BY_HAND = {
    "by_code": "by_code_lem",
    "by_number": "by_number_lem",
    "home_by": "home_by_lem",
    "keys_from": "keys_from_lem",
    "room_by": "room_by_lem",
    "same_bit": "same_bit_lem",
    "way_by": "way_by_lem",
    "held_below": "held_below_lem",
    "in-pieces": "in_pieces_lem",
    "is-done": "is_done_lem",
    "new-then-old": "new_then_old_lem",
    "old-then-new": "old_then_new_lem",
    "plain-replies": "plain_replies_lem",
    "repaired-records": "repaired_records_lem",
    "two-lines": "two_lines_lem",
    "wild-line": "wild_line_lem",
    "free-frame": "free_frame_lem",
}

DECLARED = re.compile(
    r"^\s*(?:(?:abbrev|unfoldable|pub|ruleset|mutual)\s+)*((?:[a-z][\w'-]*\s+)*[a-z][\w'-]*)\s*(?::|=)\s", re.M
)
WORDS = {"pub", "abbrev", "unfoldable", "ruleset", "mutual", "data", "record", "let", "in", "where"}
TOKEN = re.compile(r"[^\s(){}\[\].,;:`]+")


def files(root, ends):
    for folder, dirs, names in os.walk(root):
        dirs[:] = sorted(d for d in dirs if d not in ("out", ".git", "target"))
        for n in sorted(names):
            if n.endswith(ends):
                yield os.path.join(folder, n)


def read(p):
    with open(p, encoding="utf-8") as f:
        return f.read()


def write(p, t):
    with open(p, "w", encoding="utf-8") as f:
        f.write(t)


def snake(name):
    return re.sub(r"(?<=[a-z0-9])([A-Z])", lambda m: "_" + m.group(1).lower(), name)


def inside(text):
    """The fields of the records and the constructors of the data types that a file declares."""
    depth = None
    for line in text.split("\n"):
        if not line.strip():
            continue
        indent = len(line) - len(line.lstrip())
        if depth is not None and indent <= depth:
            depth = None
        if re.match(r"\s*(pub )?(record|data) .*", line):
            depth = indent
        elif depth is not None:
            m = re.match(r"\s*(?:pub )?([a-z][\w'-]*(?: [a-z][\w'-]*)*) : ", line)
            if m:
                yield from m.group(1).split()


def table():
    if os.path.exists(TABLE):
        return dict(line.split("\t") for line in read(TABLE).splitlines() if line)
    declared = collections.defaultdict(set)
    for p in files("crates", ".antt"):
        text = re.sub(r"--[^\n]*", "", read(p))
        for m in DECLARED.finditer(text):
            for n in m.group(1).split():
                if n not in WORDS:
                    declared[n].add("/specs/" in p)
        for n in inside(text):
            declared[n].add(True)
    to = {}
    for n, places in declared.items():
        new = n
        if re.search(r"[a-z0-9][A-Z]", n):
            new = snake(n)
        if "-" in n and True in places:
            new = snake(n).replace("-", "_")
        if n in BY_HAND:
            new = BY_HAND[n]
        if new != n:
            to[n] = new
    write(TABLE, "".join(f"{a}\t{b}\n" for a, b in sorted(to.items())))
    return to


def turned(text, to):
    return TOKEN.sub(lambda m: to.get(m.group(0), m.group(0)), text)


def in_backticks(text, to):
    return re.sub(r"`[^`\n]*`", lambda m: turned(m.group(0), to), text)


def antt(text, to):
    out = []
    for line in text.split("\n"):
        at = re.search(r"(?:^|\s)--", line)
        code, comment = (line[: at.start()], line[at.start() :]) if at else (line, "")
        camel = {a: b for a, b in to.items() if re.search("[A-Z]", a)}
        out.append(turned(code, to) + turned(in_backticks(comment, to), camel))
    return "\n".join(out)


def rt(text, to):
    camel = {a: b for a, b in to.items() if re.search("[A-Z]", a)}
    out = []
    for line in text.split("\n"):
        at = re.search(r"(?:^|\s)//", line)
        code, comment = (line[: at.start()], line[at.start() :]) if at else (line, "")
        parts = re.split(r'("(?:[^"\\]|\\.)*")', code)
        code = "".join(p if i % 2 else turned(p, camel) for i, p in enumerate(parts))
        out.append(code + in_backticks(comment, camel))
    return "\n".join(out)


def modules(text):
    text = re.sub(r"specs\.Contracts\b", "specs.Clauses", text)
    text = re.sub(r"\bmod Contracts\b", "mod Clauses", text)
    return text.replace("Contracts.antt", "Clauses.antt")


def main():
    to = table()
    if sys.argv[1:] == ["--pages"]:
        for p in ["README.md", *files("docs", ".md"), *files("include", ".h")]:
            if "PORT" in p:
                continue
            write(p, in_backticks(modules(read(p)), to))
        return
    # laws first that stand in the way of a definition's new name
    first = {a: b for a, b in BY_HAND.items() if "-" not in a}
    for p in files("crates", ".antt"):
        t = read(p)
        for a, b in first.items():
            t = re.sub(r"(?<![\w'.-])" + a + r"(?![\w'.-])", b, t)
        write(p, t)
    rest = {a: b for a, b in to.items() if a not in first}
    for p in files("crates", ".antt"):
        write(p, modules(antt(read(p), rest)))
    for p in files("crates", ".rt"):
        write(p, modules(rt(read(p), rest)))
    for c in sorted(os.listdir("crates")):
        old = f"crates/{c}/specs/Contracts.antt"
        if os.path.exists(old):
            os.rename(old, f"crates/{c}/specs/Clauses.antt")


main()
