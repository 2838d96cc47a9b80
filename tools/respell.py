#!/usr/bin/env python3
"""Respells the names of this repository's own definitions and lemmas, once, after port.py.

usage: tools/respell.py [--show]      at the top of the repository; --show prints the names and changes nothing

A definition, field or lemma is in snake case: `busyLength` becomes `busy_length`, and a plain word is added with `_`, as in `tick_stands`.
A dash stays where it joins two names of definitions, as in `total-append`. Types and facts keep their capitals.
Names of Rust code, goals, generated names, local variables, strings and files stay. Must-fail edits and pages are respelled alike.
"""
import collections
import glob
import os
import re
import sys

DECLARED = re.compile(r"^\s*((?:abbrev |unfoldable |pub |record )*)([^\s(){}:,;.]+) :(?!:)\s*(.*)$")
NAME = re.compile(r"(?<![\w'◌-])[A-Za-z][\w'-]*(?<!-)")
GENERATED = re.compile(r"^(element-copy-out|enum_told|partV-told)")
# lemmas that would have a definition's name get `_lem`, as the library's do
LEMMAS = {old: old.replace("-", "_") + "_lem" for old in ("bad-table", "bad-tasks", "first-applying", "is-record", "not-admitted", "over-limit", "ticks-on", "to-come", "at_rest", "refused_as", "too_many")}
# words of the library that lemmas speak of
LIBRARY = {"append", "length", "map", "set", "sets", "take", "drop", "replicate", "zero", "none", "some", "true", "false", "cond", "mod", "div", "concat", "sum"}


def files(*patterns):
    return sorted(f for p in patterns for f in glob.glob(p, recursive=True) if os.path.isfile(f))


def declared():
    """Each declared name: is it a definition somewhere, and is it ever more than an answer to a goal?"""
    found = collections.defaultdict(lambda: [False, False])
    for f in files("crates/*/specs/**/*.antt", "crates/*/proofs/**/*.antt"):
        for line in open(f, encoding="utf-8"):
            m = DECLARED.match(line)
            if m:
                said = found[m[2]]
                said[0] |= "abbrev" in m[1] or "unfoldable" in m[1]
                said[1] |= not (m[3].startswith("tie.") or m[2].endswith("-spec"))
    return found


def snake(name):
    return re.sub(r"([a-z0-9])([A-Z])", lambda m: m[1] + "_" + m[2].lower(), name)


def joined(parts, names):
    """The parts as one name: a dash between two names of definitions, and `_` beside a plain word."""
    out, i, before = "", 0, None
    while i < len(parts):
        n = next((n for n in range(len(parts) - i, 0, -1) if n < len(parts) and "_".join(parts[i:i + n]) in names), 0)
        is_name, word = n > 0, "_".join(parts[i:i + max(n, 1)])
        if out:
            out += "-" if is_name and before else "_"
        out, before, i = out + word, is_name, i + max(n, 1)
    return out


def table():
    found = declared()
    names = {snake(n) for n, said in found.items() if said[0] and n[0].islower() and "-" not in n} | LIBRARY
    to = {}
    for n, said in found.items():
        if not said[1] or GENERATED.match(n) or n[0] == "◌" or n.startswith("Nearer"):
            continue
        new = LEMMAS[n] if n in LEMMAS else joined(snake(n).split("-"), names) if "-" in n else snake(n) if n[0].islower() else n
        if new != n:
            to[n] = new
    return to


def tokens(text):
    """The names of a file; not the parts of a path, which are modules."""
    return {m[0] for m in NAME.finditer(text) if text[m.start() - 1:m.start()] != "."}


def check(to):
    """Nothing falls together: no two names become one, and no new name stands anywhere yet."""
    bad = []
    for new, olds in collections.Counter(to.values()).items():
        if olds > 1:
            bad.append(f"{new} stands for {sorted(o for o in to if to[o] == new)}")
    for f in files("crates/*/specs/**/*.antt", "crates/*/proofs/**/*.antt"):
        for t in sorted(tokens(open(f, encoding="utf-8").read()) & set(to.values()) - set(to)):
            bad.append(f"{t} stands in {f} already")
    return bad


def respell(text, to):
    """Behind a dot a part of a path stays, which has no dash and no capital, and a step of the code, behind `c` or `before`."""

    def one(m):
        if text[m.start() - 1:m.start()] == "." and (m[0].islower() and "-" not in m[0] or re.search(r"(?<![\w'-])(c|before)\.$", text[max(0, m.start() - 9):m.start()])):
            return m[0]
        return to.get(m[0], m[0])

    return NAME.sub(one, text)


def clauses(text, to):
    """The same in a file of code, outside comments."""
    return "".join(line if line.lstrip().startswith("//") else respell(line, to) for line in text.splitlines(keepends=True))


def pages(text, to):
    return re.sub(r"`[^`\n]*`", lambda m: respell(m[0], to), text)


def main():
    to = table()
    if "--show" in sys.argv[1:]:
        print("\n".join(f"{a} {b}" for a, b in sorted(to.items())))
    bad = check(to)
    print("\n".join(bad), file=sys.stderr)
    if bad or "--show" in sys.argv[1:]:
        return bool(bad)
    for f in files("crates/*/specs/**/*.antt", "crates/*/proofs/**/*.antt", "crates/*/src/**/*.rt", "crates/*/must-fail/*.edit", "README.md", "docs/*.md"):
        text = open(f, encoding="utf-8").read()
        new = clauses(text, to) if f.endswith(".rt") else pages(text, to) if f.endswith(".md") else respell(text, to)
        if new != text:
            open(f, "w", encoding="utf-8").write(new)


if __name__ == "__main__":
    sys.exit(main())
