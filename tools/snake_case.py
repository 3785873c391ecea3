#!/usr/bin/env python3
"""Respells the repository's own names in specs/ and proofs/, and where the clauses of src/ cite them: snake case for a
definition, a lemma, a field or a variable, upper camel case for a type. Run once, at the top, after the toolchain's port.py.

A name is the repository's own where a .antt file of specs/ or a lemma file of proofs/ writes it and no import brings it from
the toolchain's library. Names that Rattle makes (the goals, the steps of a `c`) are left, as are the functions of src/.
"""
import collections
import glob
import os
import re
import sys

PIECE = r"[^\s(){}\[\],.;:λ⌜⌝\"]+"
DASHED = re.compile(PIECE)
# names with a capital inside, which no rule splits well
ODD = {"zeroZ": "zero_z", "sameZ": "same_z", "getD-first": "get_or_first"}


def own_crates():
    return {os.path.basename(p) for p in glob.glob("crates/*") if os.path.isdir(p)}


def code(text):
    return re.sub(r"--.*", "", text)


def imported_from_library(text, own):
    for module, names in re.findall(r"^use\s+(\S+?)\.\{([^}]*)\}", text, re.M):
        parts = module.split(".")
        if parts[0] != "Rattle" or parts[1] not in own:
            for name in re.split(r"[\s,]+", names):
                yield name


def respelled(name):
    if name in ODD:
        return ODD[name]
    parts = name.split("-")
    if name[0].isupper():
        return "".join(p[:1].upper() + p[1:] for p in parts)
    # a capital after a small letter begins a word, as in inWord
    return "_".join(re.sub(r"(?<=[a-z])([A-Z])", lambda m: "_" + m.group(1).lower(), p) for p in parts)


def is_own(name):
    if name in ODD:
        return True
    return bool(re.fullmatch(r"[A-Za-z][\w']*(-[\w']+)+", name))


def is_answer(path):
    return os.path.basename(path) in ("Answers.antt", "Invariants.antt", "Proof.antt")


def declared_in_answers(text):
    """Lemmas of an answer file: what it declares with a type that is no goal."""
    for line in code(text).split("\n"):
        m = re.match(r"(?:(?:abbrev|unfoldable|pub)\s+)*(" + PIECE + r")\s*(?:[({].*)?:\s*(.*)$", line)
        if m and not line.startswith((" ", "use ")) and not m.group(2).startswith(("goal.", "given.")):
            yield m.group(1)


def main():
    own = own_crates()
    paths = sorted(glob.glob("crates/*/specs/**/*.antt", recursive=True) + glob.glob("crates/*/proofs/**/*.antt", recursive=True))
    texts = {p: open(p, encoding="utf-8").read() for p in paths}
    library, names = set(), set()
    for p, text in texts.items():
        library.update(imported_from_library(text, own))
        words = declared_in_answers(text) if is_answer(p) else DASHED.findall(code(text))
        names.update(w for w in words if is_own(w))
    both = names & library
    names -= library
    table = {n: respelled(n) for n in names}
    old = collections.Counter(table.values())
    taken = set()
    for text in texts.values():
        taken.update(w for w in DASHED.findall(code(text)) if w not in table)
    for name, new in sorted(table.items()):
        if old[new] > 1 or new in taken:
            print(f"falls together: {name} -> {new}")
    if both:
        print("left, the library has it:", " ".join(sorted(both)))
    def turn(text, comment):
        out = []
        for line in text.split("\n"):
            body, mark, rest = line.partition(comment)
            out.append(DASHED.sub(lambda m: table.get(m.group(0), m.group(0)), body) + mark + rest)
        return "\n".join(out)
    for p, text in texts.items():
        # a string keeps its spelling: PIECE stops at the quote, and no string here holds a dashed name
        new = turn(text, "--")
        if new != text:
            open(p, "w", encoding="utf-8").write(new)
    for p in sorted(glob.glob("crates/*/src/**/*.rt", recursive=True)):
        text = open(p, encoding="utf-8").read()
        new = turn(text, "//")
        if new != text:
            open(p, "w", encoding="utf-8").write(new)
    if "-v" in sys.argv:
        for name, new in sorted(table.items()):
            print(f"{name} {new}")


main()
