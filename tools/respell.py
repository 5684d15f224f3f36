#!/usr/bin/env python3
"""Respells the names of definitions and lemmas: run once, at the top, after the toolchain's own script.

Each lower camel word in crates/*/{specs,proofs,src} and in the must-fail edits becomes snake case, part by part between dashes
(`takeOut` is `take_out`, `charged-takeOut` is `charged-take_out`); words that begin with a capital stay, and so do texts in quotation
marks of a source file. The lemmas whose names fall together with a definition's get `_lem` first; a fact in lower case gets a capital.
The pages README.md and docs/*.md follow, where a name stands between backticks.
"""

import os
import re
import sys

# A lemma whose name is its definition's once both are in snake case: file, old word, new word.
LEMMAS = [
    (
        "any_below",
        "any_below_lem",
        ("crates/model/", "crates/bus_model/specs/Seen.antt", "crates/effects/specs/Listing.antt", "crates/seeds/specs/Code.antt"),
    ),
    ("goes_on", "goes_on_lem", ("crates/session/specs/Laws.antt",)),
    ("open_row", "open_row_lem", ("crates/tables/",)),
    ("slots_at", "slots_at_lem", ("crates/seeds/specs/",)),
]
FACTS = {
    "dueTo": "DueTo",
    "Goes-on": "GoesOn",
    "Goes_on": "GoesOn",
    "Left-as": "LeftAs",
    "Read-whole": "ReadWhole",
    "Same-as": "SameAs",
    "Seen-as": "SeenAs",
    "Text-of": "TextOf",
}
WORD = re.compile(r"(?<![\w'-])[A-Za-z][\w'-]*")
QUOTED = re.compile(r'("(?:[^"\\\n]|\\.)*")')


def part(p):
    if not re.match(r"[a-z]", p) or not re.search(r"[A-Z]", p) or re.search(r"_[A-Z]", p):
        return p
    p = re.sub(r"([a-z0-9])([A-Z])", r"\1_\2", p)
    return re.sub(r"([A-Z])([A-Z][a-z])", r"\1_\2", p).lower()


def word(m):
    w = m.group(0)
    return FACTS.get(w) or "-".join(part(p) for p in w.split("-"))


def respell(text, keep_quoted):
    if not keep_quoted:
        return WORD.sub(word, text)
    return "".join(t if i % 2 else WORD.sub(word, t) for i, t in enumerate(QUOTED.split(text)))


def source(text):
    """Rust's part of a .rt file has no lower camel word but in quotation marks, so the clauses alone change."""
    return respell(text, True)


def change(path, turn):
    with open(path, encoding="utf-8") as f:
        old = f.read()
    new = turn(old)
    if new != old:
        with open(path, "w", encoding="utf-8") as f:
            f.write(new)


def main(top):
    os.chdir(top)
    for folder, dirs, files in os.walk("crates"):
        dirs[:] = sorted(d for d in dirs if d != "out")
        for name in sorted(files):
            path = os.path.join(folder, name)
            if name.endswith(".antt"):
                for old, new, places in LEMMAS:
                    if path.startswith(places):
                        change(path, lambda t: re.sub(r"(?<![\w'-])" + old + r"(?![\w'-])", new, t))
                change(path, lambda t: respell(t, False))
            elif name.endswith((".rt", ".edit")):
                change(path, source)
    pages = ["README.md"] + [os.path.join("docs", p) for p in sorted(os.listdir("docs")) if p.endswith(".md")]
    for path in pages:
        change(path, lambda t: re.sub(r"`[^`\n]*`", lambda m: respell(m.group(0), False), t))


main(sys.argv[1] if len(sys.argv) > 1 else ".")
