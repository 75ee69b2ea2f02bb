#!/usr/bin/env python3
"""Brings this repository's own definitions, lemmas and aliases to today's spelling: words in snake case.

usage: python3 tools/respell.py [--dry]      at the top of the checkout, once, after port.py

It reads the names that the files of crates/*/specs and crates/*/proofs declare, turns those that are in camel case with a
small first letter or that join plain words by a dash, and rewrites each place that names them: .antt files, the ghost text
of .rt files, and must-fail edits. Types, modules, functions of src/ and strings keep their names. It refuses to run where two
names would fall together, and prints what it turned.
"""

import re
import sys
from pathlib import Path

# A snake case that another name has already: four are fields of `Description`, the last one of a promise.
FELL_TOGETHER = {
    "pageWords": "page_words_of",
    "generalPages": "general_pages_of",
    "auxiliaryPages": "auxiliary_pages_of",
    "auxiliaryVector": "auxiliary_vector_of",
    "notSet": "not_set_in",
}
WORD = re.compile(r"[^\s(){}\[\].,;:«»⌜⌝]+")
DECLARED = re.compile(r"^\s*(?:(?:abbrev|unfoldable)\s+)?(?:pub\s+)?([^\s:(){}]+)(?:\s+\{[^}]*\})?\s+:\s", re.M)
ALIAS = re.compile(r"\bas\s+([^\s,;{}]+)")
GHOST_USE = re.compile(r"ghost use\b[^;]*;", re.S)


def in_snake_case(name):
    if name in FELL_TOGETHER:
        return FELL_TOGETHER[name]
    if not re.fullmatch(r"[a-z][A-Za-z0-9]*(?:-[a-z0-9]+)*'*", name):
        return name
    return re.sub(r"(?<=[a-z0-9])([A-Z])", lambda m: "_" + m.group(1).lower(), name).replace("-", "_")


def is_shared(path):
    """A file of definitions or lemmas, as against the proof of one function, whose names the checker makes."""
    return path.suffix == ".antt" and path.parent.name in ("specs", "proofs")


def declared(files):
    names = set()
    for path, text in files.items():
        if is_shared(path):
            names |= set(DECLARED.findall(text)) | set(ALIAS.findall(text))
        elif path.suffix == ".rt":
            for line in GHOST_USE.findall(text):
                names |= set(ALIAS.findall(line))
    return names


def main():
    root = Path(".")
    paths = sorted(p for p in root.glob("crates/**/*") if p.suffix in (".antt", ".rt", ".edit") and "out" not in p.parts)
    files = {p: p.read_text(encoding="utf-8") for p in paths}
    names = declared(files)
    turned = {n: in_snake_case(n) for n in sorted(names) if in_snake_case(n) != n}
    fallen = [(n, t) for n, t in turned.items() if t in names or list(turned.values()).count(t) > 1]
    if fallen:
        print("fall together: " + ", ".join(f"{n} and {t}" for n, t in fallen))
        return 1
    for path, text in files.items():
        new = WORD.sub(lambda m: turned.get(m.group(), m.group()), text)
        if new != text and "--dry" not in sys.argv:
            path.write_text(new, encoding="utf-8")
    for n, t in turned.items():
        print(f"{n} {t}")
    return 0


sys.exit(main())
