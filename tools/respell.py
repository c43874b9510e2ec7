#!/usr/bin/env python3
"""Brings the names of this repository's definitions and lemmas to snake case.

usage: python3 tools/respell.py [ROOT]

A name is turned if a file of specs/ or proofs/ defines it: a definition, a lemma, a field, a constructor, and, in such a file,
a local name or the other name of an import. Names of the library and names that the check makes stay. A lemma that would get the
name of the function that carries it ends in _lem. Strings of src/ stay. It is run once, after the toolchain's own script; a second run changes nothing.
"""

import glob
import os
import re
import sys

NAME = r"[^\s(){}\[\];,.λ:\"`|]+"
DASHED = re.compile(r"\w-\w")
DEFINED = re.compile(r"^\s*(?:(?:pub|abbrev|unfoldable)\s+)*(" + NAME + r")\s+:\s+(\S+)", re.M)
IMPORT = re.compile(r"^use ([^\s{]+?)(?:\.\{([^}]*)\})?(?: as (\S+))?$", re.M)
CARRIED = {"cases-work", "ends-early", "readers-run", "reading-answers", "reading-ends", "round-ends", "writing-ends"}
# fields and modules of the library
FOREIGN = {"not-nil"}


def files(root, pattern):
    return [p for p in sorted(glob.glob(os.path.join(root, "crates", "**", pattern), recursive=True)) if "/out/" not in p]


def read(path):
    with open(path, encoding="utf-8") as f:
        return f.read()


def is_answer(path):
    """Does the file answer goals of one function."""
    return "/proofs/" in path and "/" in path.split("/proofs/")[1]


def without_comments(text):
    return re.sub(r"--.*", "", text)


def imported(text, own):
    """Names that the file takes from elsewhere, or from what the check makes."""
    names = set()
    for path, items, _ in IMPORT.findall(text):
        parts = path.split(".")
        if parts[0] != "Rattle" or parts[1] not in own or parts[-1] in ("Goals", "Given"):
            names.update(n.strip().split(" as ")[0] for n in items.split(","))
    return names


def names_of(root):
    own = set(os.listdir(os.path.join(root, "crates")))
    found = set()
    for path in files(root, "*.antt"):
        text = without_comments(read(path))
        found.update(n for n, kind in DEFINED.findall(text) if DASHED.search(n) and not kind.startswith("goal."))
        if not is_answer(path):
            foreign = imported(text, own) | FOREIGN
            body = re.sub(r"^use .*$", "", text, flags=re.M)
            found.update(w for w in re.findall(NAME, body) if DASHED.search(w) and w not in foreign)
    return found


def snake(name):
    """A dash between two words becomes a line below; a type's words are joined."""
    if name[0].isupper():
        return "".join(word[0].upper() + word[1:] for word in name.split("-"))
    return re.sub(r"(?<=\w)-(?=\w)", "_", name)


def turned(name):
    return snake(name) + ("_lem" if name in CARRIED else "")


def respell(text, names, answer):
    """Each name that stands alone; behind a dot in a file of answers it may be a name that the check makes, of a function."""

    def one(m):
        word = m.group()
        if word not in names:
            return word
        if answer and text[: m.start()].endswith("."):
            return snake(word)
        return turned(word)

    return re.sub(NAME, one, text)


def respell_source(text, names):
    parts = re.split(r'("(?:[^"\\\n]|\\.)*")', text)
    return "".join(p if i % 2 else respell(p, names, False) for i, p in enumerate(parts))


def main(argv):
    root = argv[0] if argv else "."
    names = names_of(root)
    changed = 0
    for path in files(root, "*.antt") + files(root, "*.rt") + files(root, "*.edit"):
        before = read(path)
        after = respell(before, names, is_answer(path)) if path.endswith(".antt") else respell_source(before, names)
        if after != before:
            with open(path, "w", encoding="utf-8") as f:
                f.write(after)
            changed += 1
    print(f"respell: {len(names)} names, {changed} files")


if __name__ == "__main__":
    main(sys.argv[1:])
