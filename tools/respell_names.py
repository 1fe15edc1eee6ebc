#!/usr/bin/env python3
"""Respells the names of definitions and lemmas: words in snake case, as PORTING.md, part 3, of the toolchain asks.

usage: python3 tools/respell_names.py [FOLDER]     at the top of the repository, once, after the toolchain's port.py

A name of specs/ or proofs/ that begins in lower case and has capitals inside gets underscores, `wordOf` becoming `word_of`; a definition
(abbrev or unfoldable) or a record's field with dashes gets underscores in their place, and a lemma keeps them. Types, facts and modules keep
their capitals. Functions of src/, exported names, strings, inputs and outputs are not touched: no name of these has a capital inside or a
dash. Names that would fall together with others get the words below.
"""
import glob
import os
import re
import sys

# Where the plain respelling is another name of the same scope already.
OWN = {
    "inOrder": "in_word_order",
    "heldWord": "word_as_held",
    "readAnswer": "reading_answer",
    "uptoWords": "upto_row_words",
    "isKept": "is_kept_word",
    "book-of": "book_in",
    "commit-range": "range_committed",
    "edge-of": "edge_listed",
    "label-of": "label_at",
    "kept-count": "kept_counted",
    "run-after": "run_left",
    "word-at": "word_placed",
    "movedOn": "book_moved_on",
}
DECLARED = re.compile(r"^(\s*)((?:abbrev |unfoldable |pub )*)([^\s(){}:,.;]+)\s*:(?=\s)")
TOKEN = re.compile(r"[A-Za-zα-ωΑ-Ω_][\w'?]*(?:-[\w'?*+=≤≡∷]+)*")


def texts(*endings):
    for ending in endings:
        yield from sorted(p for p in glob.glob("crates/**/*" + ending, recursive=True) if "/out/" not in p)


def snake(name):
    parts = name.replace("getD", "get_or").split("-")
    return "-".join(p if not p[:1].islower() else re.sub(r"(?<=[a-z0-9])([A-Z])", lambda m: "_" + m.group(1).lower(), p) for p in parts)


def declared():
    """Each name that a file of specs/ or proofs/ declares, and whether it is a definition or a field."""
    found = {}
    for path in texts(".antt"):
        in_record = False
        for line in open(path, encoding="utf-8"):
            if re.match(r"(pub )?record ", line):
                in_record = True
            elif line.strip() and not line.startswith((" ", "--")):
                in_record = False
            m = DECLARED.match(line)
            if not m or not re.match(r"[A-Za-zα-ω]", m.group(3)):
                continue
            field = in_record and m.group(1) == "  "
            made = re.match(r"(invariant|decreases|loop|return|μ)-", m.group(3))
            plain = (field or "abbrev" in m.group(2) or "unfoldable" in m.group(2)) and not made
            found[m.group(3)] = found.get(m.group(3), False) or plain
    return found


def renamed(found):
    new = {}
    for name, plain in found.items():
        to = OWN.get(name) or snake(name)
        if plain and not to[:1].isupper():
            to = to.replace("-", "_")
        if to != name:
            new[name] = to
    return new


def main(argv):
    if argv:
        os.chdir(argv[0])
    found = declared()
    new = renamed(found)
    taken = {}
    for name in found:
        taken.setdefault(new.get(name, name), []).append(name)
    for to, names in sorted(taken.items()):
        if len(names) > 1:
            print("fall together:", to, names)
    for path in list(texts(".antt", ".rt")) + ["README.md"] + sorted(glob.glob("docs/*.md")):
        text = open(path, encoding="utf-8").read()
        prose = path.endswith(".md")
        turned = TOKEN.sub(lambda m: new.get(m.group(0), m.group(0)) if not prose or re.search("[a-z][A-Z]", m.group(0)) else m.group(0), text)
        if turned != text:
            with open(path, "w", encoding="utf-8") as f:
                f.write(turned)
    print(len(new), "names respelled")


if __name__ == "__main__":
    main(sys.argv[1:])
