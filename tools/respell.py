#!/usr/bin/env python3
"""Brings the repository's own definitions and lemmas to the library's spelling: words in snake case, types, facts and modules in camel case.

usage: tools/respell.py [--list]     at the top of the repository, once, after the kit's port.py

It goes by words. A word is one of ours if some file of specs/ or proofs/ has it outside comments and outside imports from a library. Functions
of src/, strings, inputs and outputs have no such word. It names the words of one file that would fall together.
"""

import pathlib
import re
import sys

ROOT = pathlib.Path(__file__).resolve().parent.parent
WORD = re.compile(r"(?<![\w'-])[A-Za-z][\w'-]*")
IMPORT = re.compile(r"^(?:ghost |pub )?use ([\w.'+·-]+)\.\{([^}]*)\}", re.M)
# Functions of FIPS 180-4 are words too, and a lemma or a field that port.py left between two spellings takes that of its neighbours.
GIVEN = {"Ch": "ch", "Parity": "parity", "Maj": "maj", "Maj-lt": "maj_lt", "d-lt": "d_lt", "e-lt": "e_lt"}
# Lemmas that would have the name of a definition, or all but its dash; a name behind a dot is a field.
LEMMAS = """marked_by bytes_read no_words lane_first first_by digest-left schedule-words whole-conditions padding-bytes last-chain finish-refusal
    outcome-place whole-refusal update-refusal state-kept of-refusal turned-away obeys-from first-bad repeat-fault first-repeat well-formed mark-fits
    block-agrees sibling-schedule given-first on-lane lane-outcome behind-masks block-is""".split()


def snake(word):
    return re.sub(r"(?<=[a-z0-9])[A-Z]", lambda m: "_" + m.group().lower(), word)


def antt(text):
    return re.sub(r"--[^\n]*", "", text)


def library(text):
    found = set()
    for path, names in IMPORT.findall(text):
        if not path.startswith("Rattle.") or path.startswith("Rattle.std."):
            found |= {part.strip().split(" as ")[0] for part in names.split(",")}
    return found


def english(text, path, word):
    """Whether a lemma's name is no lemma where it stands: a field, or two words of a comment or a page."""
    if word.group() not in LEMMAS:
        return False
    before = text[text.rfind("\n", 0, word.start()) + 1 : word.start()]
    return path.suffix != ".antt" or before.endswith(".") or "--" in before


def main():
    proofs = sorted(p for p in ROOT.glob("crates/*/*/**/*.antt") if "/out/" not in str(p))
    code = sorted(ROOT.glob("crates/*/src/*.rt"))
    edits = sorted(ROOT.glob("crates/*/must-fail/*.edit"))
    pages = [ROOT / "README.md", *sorted((ROOT / "docs").glob("**/*.md")), ROOT / "compare/README.md"]
    texts = {p: p.read_text(encoding="utf-8") for p in proofs + code + edits + pages}
    kept = set().union(*(library(texts[p]) for p in proofs + code))
    turned = dict(GIVEN)
    for p in proofs:
        for word in WORD.findall(antt(texts[p])):
            if word[0].islower() and "-" not in word and snake(word) != word and word not in kept:
                turned[word] = snake(word)
    turned.update((old, old.replace("-", "_") + "_lem") for old in LEMMAS)
    taken = {}
    for p in proofs + code:
        here = set(WORD.findall(antt(texts[p]) if p.suffix == ".antt" else texts[p]))
        for old in here & set(turned):
            if turned[old] in here and turned[old] not in turned:
                taken.setdefault((old, turned[old]), []).append(p)
    if "--list" in sys.argv:
        print("\n".join(f"{old} {new}" for old, new in sorted(turned.items())))
    for (old, new), where in sorted(taken.items()):
        print(f"{old} and {new} fall together in", *(p.relative_to(ROOT) for p in where))
    if "--list" in sys.argv:
        return
    for p, text in texts.items():
        new = WORD.sub(lambda m: m.group() if english(text, p, m) else turned.get(m.group(), m.group()), text)
        if new != text:
            p.write_text(new, encoding="utf-8")


if __name__ == "__main__":
    main()
