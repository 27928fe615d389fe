#!/usr/bin/env python3
"""Spells the repository's own definitions and lemmas in snake case, as today's Rattle does. Run once, at the top, right after port.py.

usage: python3 tools/snake_names.py          rewrites crates/*/{src,specs,proofs} and crates/*/must-fail
       python3 tools/snake_names.py --list   prints old and new name of each, and names that fall together, and writes nothing

Words are in snake case; a dash joins two names, and stays only behind a definition's name at the front of a lemma's. What Rattle generates for a function (goals, steps) is
named after the source and is left alone, and so are Rust's names, strings, and everything that begins with a capital letter.
"""
import os
import re
import sys

WORD = re.compile(r"[^\s(){}\[\];,.:=\"`']+'*")
CAMEL = re.compile(r"^[a-z][A-Za-z0-9]*[A-Z][A-Za-z0-9]*'*$")
# A lemma that would have a definition's name.
LEMMAS = ["element-of", "quick-answer", "decode-to", "encoded-answer", "encodes-flat", "flips-to", "right-lengths", "to-tile", "one_bit", "same_answer", "group_at"]
SIGNATURE = re.compile(r"^\s*(?:unfoldable |abbrev |pub |private )*([^\s(){}\[\];,.:=\"]+) :(?: |$)")


def files(kinds):
    for folder, dirs, names in os.walk("crates"):
        dirs[:] = sorted(d for d in dirs if d != "out")
        for n in sorted(names):
            if n.endswith(kinds):
                yield os.path.join(folder, n)


def read(path):
    with open(path, encoding="utf-8") as f:
        return f.read()


def code(text, mark):
    """The text without comments."""
    return "\n".join(re.sub(r"(^|\s)" + mark + r".*", "", l) for l in text.split("\n"))


def shared(path):
    """Whether a proof file holds lemmas of the crate, and is not of one function."""
    parts = path.split(os.sep)
    return path.endswith(".antt") and (parts[2] == "specs" or len(parts) == 4)


def snake(name):
    return re.sub(r"(?<=[a-z0-9])([A-Z])", r"_\1", name).lower()


def renamed():
    declared, used, generated = set(), set(), set()
    for p in files((".antt",)):
        text = code(read(p), "--")
        used |= set(WORD.findall(text))
        for l in text.split("\n"):
            m = SIGNATURE.match(l)
            if m:
                (declared if shared(p) else generated).add(m.group(1))
    rust = set()
    for p in files((".rt",)):
        rust |= set(re.findall(r"[A-Za-z_][A-Za-z0-9_]*", code(read(p), "//")))
    camel = {w: snake(w) for w in used | rust if CAMEL.match(w)}
    definitions = {w for w in declared if "-" not in w} | set(camel)

    def joined(name):
        first, rest = name.split("-", 1)
        dash = first == "getD" or first in camel or first == "length" and rest in definitions
        first = "get_or" if first == "getD" else snake(first)
        return first + ("-" if dash else "_") + snake(rest).replace("-", "_")

    dashed = {w: joined(w) for w in declared if "-" in w and w not in generated and w.isascii()}
    taken = used | rust
    dashed = {a: b + "_lem" if b != a and (b in taken or b in camel.values()) else b for a, b in dashed.items()}
    lemmas = {w: w.replace("-", "_") + "_lem" for w in LEMMAS}
    change = {a: b for a, b in (camel | dashed | lemmas).items() if a != b}
    fall = {a: b for a, b in change.items() if b in taken or sum(1 for c in change.values() if c == b) > 1}
    return change, fall


def main(argv):
    change, fall = renamed()
    if argv == ["--list"]:
        for a, b in sorted(change.items()):
            print(a, b, "FALLS TOGETHER" if a in fall else "")
        return 0

    def word(m):
        return change.get(m.group(0), m.group(0))

    def prose(m):
        return m.group(0) if "-" in m.group(0) else word(m)

    def line(text, mark):
        at = re.search(r"(^|\s)" + mark, text)
        end = at.end() if at else len(text)
        parts = re.split(r'("(?:[^"\\]|\\.)*")', text[:end])
        return "".join(p if i % 2 else WORD.sub(word, p) for i, p in enumerate(parts)) + WORD.sub(prose, text[end:])

    for p in files((".antt", ".rt", ".edit")):
        old = read(p)
        mark = {".antt": "--", ".rt": "//", ".edit": "#"}[os.path.splitext(p)[1]]
        new = "\n".join(line(l, mark) for l in old.split("\n"))
        if new != old:
            with open(p, "w", encoding="utf-8") as f:
                f.write(new)
    return 0


if __name__ == "__main__":
    sys.exit(main(sys.argv[1:]))
