#!/usr/bin/env python3
"""Respells the definitions and lemmas of specs/ and proofs/ from camel case to snake case: laidOut becomes laid_out.

usage: tools/snake_names.py [FOLDER]      FOLDER: a checkout, turned to today's spelling by the kit's port.py and not yet respelled

Functions of src/, strings and literals keep their spelling: only words that begin in lower case and have a capital inside are turned. A lemma
that would fall together with the definition it speaks of takes the ending _lem; slotBytes, which would be hidden by parameters of that name,
becomes bytes_of_slot. The file Contracts of marble's specs/, whose name is Rattle's own now, becomes CallContracts.
"""
import os
import re
import sys

# A word of antt: letters, digits, dashes and primes.
WORD = re.compile(r"(?<![\w'])[^\W\d](?:[\w'-]*[\w'])?")
HUMP = re.compile(r"(?<=[A-Za-z0-9])([A-Z])")
# Lemmas that fall together with the definition they speak of, in these crates (None: in all).
LEMMAS = {"cut_off": "history_theory", "found_in": "history_theory", "laid_out": None, "live_at": "theory", "said_in": "through", "split_from": "history_theory"}
OWN = {"slotBytes": "bytes_of_slot"}


def snake(part):
    """A part of a word, between dashes."""
    if part in OWN:
        return OWN[part]
    if part[:1].islower():
        return HUMP.sub(lambda m: "_" + m.group(1).lower(), part)
    return part


def turned(text, lemmas):
    def word(m):
        w = m.group()
        if w in lemmas and not text.endswith(".", 0, m.start()):
            return w + "_lem"
        return "-".join(snake(p) for p in w.split("-"))

    return WORD.sub(word, text)


def code(text):
    """A source file, without its strings."""
    parts = re.split(r'(b?"(?:[^"\\\n]|\\.)*")', text)
    return "".join(p if i % 2 else turned(p, ()) for i, p in enumerate(parts))


def main(argv):
    top = argv[0] if argv else "."
    inside = os.path.join(top, "crates")
    for folder, dirs, files in os.walk(inside):
        dirs[:] = sorted(d for d in dirs if not (d in ("out", "target") and os.path.dirname(folder) == inside))
        for name in sorted(files):
            path = os.path.join(folder, name)
            if not name.endswith((".antt", ".rt")):
                continue
            with open(path, encoding="utf-8") as f:
                old = f.read()
            crate = os.path.relpath(path, inside).split(os.sep)[0]
            lemmas = [w for w, only in LEMMAS.items() if only in (None, crate)] if name.endswith(".antt") else []
            new = turned(old, lemmas) if name.endswith(".antt") else code(old)
            if new != old:
                with open(path, "w", encoding="utf-8") as f:
                    f.write(new)
    specs = os.path.join(inside, "marble", "specs")
    if os.path.exists(os.path.join(specs, "Contracts.antt")):
        os.rename(os.path.join(specs, "Contracts.antt"), os.path.join(specs, "CallContracts.antt"))
        for name in os.listdir(specs):
            path = os.path.join(specs, name)
            with open(path, encoding="utf-8") as f:
                old = f.read()
            new = re.sub(r"(?<=pub mod )Contracts\b|(?<=Rattle\.marble\.specs\.)Contracts\b", "CallContracts", old)
            if new != old:
                with open(path, "w", encoding="utf-8") as f:
                    f.write(new)
    return 0


if __name__ == "__main__":
    raise SystemExit(main(sys.argv[1:]))
