#!/usr/bin/env python3
"""The second step of the move to today's Rattle: run once at the top, on what port.py left (docs/PORT.md).

1. The crate core has the name of a library of the kit, and is core_state from here on. port.py took its modules for the kit's.
2. Definitions, lemmas, fields and locals of the repository that stand in camel case are in snake case. Types, facts and modules keep
   their capitals; names of src/ were in snake case already.
It stops, and writes nothing, where two names would fall together.
"""

import os
import re
import subprocess
import sys

OWN = r"(?:Effects|Whole|StatusLine|Geometry|Fresh|Glyphs|Pens|Modes)"
DECLARED = r"(?:Core|Displays|StatusLine|Decision|Margins|Saved|LineSaved|Modes|geometry)"
CORE = [
    (r"Rattle\.std\.specs\.declared\.(" + DECLARED + r"\b)", r"Rattle.core_state.specs.declared.\1"),
    (r"Rattle\.std\.specs\.(" + OWN + r"\b)", r"Rattle.core_state.specs.\1"),
    (r"Rattle\.std\.specs\.Bound\b", r"Rattle.core_state.specs.Bounds"),
    (r"Rattle\.std\.proofs\.PenLaws\b", r"Rattle.core_state.proofs.PenLaws"),
    (r"Rattle\.core\.specs\.Prelude\b", r"Rattle.std.specs.Prelude"),
    (r"Rattle\.core\.specs\.Range\.Bound\b", r"Rattle.core_state.specs.Bounds"),
    (r"Rattle\.core\.(specs|proofs)\b", r"Rattle.core_state.\1"),
]

# where a lemma has the new name of a definition that stands in the same file, the lemma takes another
FIRST = {
    "crates/examples/proofs/Examples.antt": {"all_hold": "table_holds"},
    "crates/spans/proofs/TextLaws.antt": {"all_known": "known_all"},
}

WORD = re.compile(r"(?<![\w'])[^\W\d][\w'-]*")
CAMEL = re.compile(r"(^|[-_])[a-z][a-z0-9]*[A-Z]")
HEX = re.compile(r"x[0-9A-F]+$")


def snake(name):
    parts = []
    for p in name.split("-"):
        p = re.sub(r"([a-z0-9])([A-Z])", r"\1_\2", p)
        parts.append(re.sub(r"([A-Z]+)([A-Z][a-z])", r"\1_\2", p).lower())
    return "-".join(parts)


def files():
    for folder, dirs, names in os.walk("crates"):
        dirs[:] = sorted(d for d in dirs if d != "out")
        for n in sorted(names):
            if n.endswith((".antt", ".rt")):
                yield os.path.join(folder, n)


def respelled(texts):
    made = {}
    for t in texts.values():
        for m in WORD.finditer(t):
            if CAMEL.search(m.group(0)) and not HEX.match(m.group(0)):
                made[m.group(0)] = snake(m.group(0))
    by = {}
    for old, new in sorted(made.items()):
        if new in by:
            sys.exit(f"{old} and {by[new]} would both be {new}")
        by[new] = old
    out = {}
    for path, t in texts.items():
        for old, new in FIRST.get(path, {}).items():
            t = re.sub(r"(?<![\w'.-])" + old + r"(?![\w'-])", new, t)
        for old, new in CORE:
            t = re.sub(old, new, t)
        if path.endswith(".rt"):
            t = re.sub(r"(?<![\w.:])core::", "core_state::", t)
        out[path] = WORD.sub(lambda m: made.get(m.group(0), m.group(0)), t)
    return out


def main():
    texts = {}
    for p in files():
        with open(p, encoding="utf-8") as f:
            texts[p] = f.read()
    for p, t in respelled(texts).items():
        if t != texts[p]:
            with open(p, "w", encoding="utf-8") as f:
                f.write(t)
    with open("crates.txt", encoding="utf-8") as f:
        lines = f.read().split("\n")
    with open("crates.txt", "w", encoding="utf-8") as f:
        f.write("\n".join(l if l.startswith("#") else re.sub(r"\bcore\b", "core_state", l) for l in lines))
    subprocess.run(["git", "mv", "crates/core", "crates/core_state"], check=True)


main()
