#!/usr/bin/env python3
"""Respells this repository's own definitions and lemmas as today's Rattle spells names.

usage: python3 tools/respell.py            at the top of the repository, once, after the kit's port.py has run

Facts and types go to upper camel case (Too-far becomes TooFar), all else to snake case (of-kind becomes of_kind). Names of the
library and names that the check makes from the source keep their dashes, and so do functions of src/, strings and comments.
Where two of our names would fall together, or one would become a name of src/ that is no function's, nothing is written. (A clause
cannot call a function, so a definition may have the name of the function whose result it is, as `digit` does.)
"""

import glob
import os
import re
import sys

SPECIAL = {"getD-bit": "get_or_bit", "getD-pairs": "get_or_pairs", "item-getD": "item_get_or"}
WORD = re.compile(r"[^\W\d]['\w]*(?:-['\w]+)+")
IMPORT = re.compile(r"use ([\w.+-]+)\.\{([^}]*)\}")
FUNCTION = re.compile(r"\bfn (\w+)")


def respelt(name):
    """The new spelling of a name with dashes."""
    if name in SPECIAL:
        return SPECIAL[name]
    parts = name.split("-")
    if name[0].isupper():
        return "".join(part[:1].upper() + part[1:] for part in parts)
    return "_".join(part[:1].lower() + part[1:] for part in parts)


def is_lemma(path):
    """A file of specs/ or one right in proofs/, and not the proof of one function."""
    return os.path.basename(os.path.dirname(path)) in ("specs", "proofs")


def code(text, path):
    """The parts of a file that may be respelt, as pairs (is code, text)."""
    mark = r"//[^\n]*|\"(?:[^\"\\\n]|\\.)*\"" if path.endswith(".rt") else r"--[^\n]*"
    at = 0
    for it in re.finditer(mark, text):
        yield True, text[at:it.start()]
        yield False, it.group()
        at = it.end()
    yield True, text[at:]


def read(path):
    with open(path, encoding="utf-8") as f:
        return f.read()


def words(path):
    return {w for is_code, part in code(read(path), path) if is_code for w in WORD.findall(part)}


def imported(paths, own):
    """The names that files import from elsewhere than the repository's lemmas and definitions."""
    names = set()
    for path in paths:
        for module, listed in IMPORT.findall(read(path)):
            parts = module.split(".")
            ours = parts[0] == "Rattle" and parts[1] in own and parts[-1] not in ("Goals", "Given")
            for name in listed.split(","):
                first, _, local = name.strip().partition(" as ")
                if not ours:
                    names.add(first.strip())
    return names


def main():
    own = {os.path.basename(c) for c in glob.glob("crates/*")}
    antt = sorted(glob.glob("crates/*/specs/**/*.antt", recursive=True) + glob.glob("crates/*/proofs/**/*.antt", recursive=True))
    rust = sorted(glob.glob("crates/*/src/**/*.rt", recursive=True))
    lemmas = [p for p in antt if is_lemma(p)]
    foreign = imported(antt + rust, own)
    new = {}
    for path in lemmas:
        for name in words(path) - foreign:
            new[name] = respelt(name)
    functions = {name for path in rust for name in FUNCTION.findall(read(path))}
    taken = {}
    bad = []
    plain = re.compile(r"[^\W\d]['\w]*")
    for path in lemmas + rust:
        for is_code, part in code(read(path), path):
            if is_code:
                for w in plain.findall(WORD.sub(" ", part)):
                    taken.setdefault(w, path)
    seen = {}
    for old, name in sorted(new.items()):
        if name in seen:
            bad.append(f"{old} and {seen[name]} would both be {name}")
        seen[name] = old
        if name in taken and name not in functions:
            bad.append(f"{old} would be {name}, which stands in {taken[name]}")
    if bad:
        print("\n".join(bad))
        return 1
    for path in antt + rust + sorted(glob.glob("crates/*/must-fail/*.edit")):
        text = read(path)
        out = "".join(WORD.sub(lambda it: new.get(it.group(), it.group()), part) if is_code else part for is_code, part in code(text, path))
        if out != text:
            with open(path, "w", encoding="utf-8") as f:
                f.write(out)
    for old, name in sorted(new.items()):
        print(f"{old} {name}")
    return 0


if __name__ == "__main__":
    sys.exit(main())
