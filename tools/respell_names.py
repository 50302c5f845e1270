#!/usr/bin/env python3
"""Gives the definitions and lemmas of the repository the spelling of today's library.

usage: python3 tools/respell_names.py      at the top of the repository, once, after the kit's port.py

A definition or lemma of specs/ or proofs/ whose name begins with a small letter is respelled in snake case:
numberOf becomes number_of, byte-of-placed becomes byte_of_placed. A dash stays where it joins the names of two
definitions, as in tabulated-written. Types, records and facts keep their capitals; goals that the check names keep
theirs; functions, fields, constants, strings and everything else of src/ outside clauses stays as it is.
A lemma that would then have the name of a definition of its crate gets _lem.
It prints each name with its new spelling, and stops before it writes where two names of one module fall together.
"""

import os
import re
import sys

TOP = os.path.join(os.getcwd(), "crates")
NAME = r"[A-Za-z][\w'-]*"
TOKEN = re.compile(r"(?<![\w'·«.-])" + NAME + r"(?![\w'-])")
DECLARED = re.compile(r"^(?:abbrev |unfoldable )?(?:pub )?(" + NAME + r") :(?: |$)", re.M)
# what the check names: goals and what stands in Invariants.antt
GOALS = re.compile(r"^(returns|ensures|invariant|decreases|loop|if|in|overflow|bounds|invariant_of|ghost|nonzero|slice_bounds|follow-|.*-(requires|init|preserved|smaller)$)")
KNOWN = {"length", "take", "drop", "map", "set", "append"}


def files(ending):
    for folder, dirs, names in os.walk(TOP):
        dirs[:] = sorted(d for d in dirs if d != "out")
        for n in sorted(names):
            if n.endswith(ending):
                yield os.path.join(folder, n)


def is_lemma_file(path):
    """specs/*.antt and proofs/*.antt, and not proofs/F/*.antt, whose names are those of goals."""
    folder = os.path.basename(os.path.dirname(path))
    return folder in ("specs", "proofs")


def read(path):
    with open(path, encoding="utf-8") as f:
        return f.read()


def snake(word):
    word = re.sub(r"(?<=[a-z'])([A-Z])", r"_\1", word)
    return word.lower()


def spelled(name, definitions):
    """The name in snake case; a dash stays between two names of definitions."""
    if name[0].isupper():
        return name
    parts = name.split("-")
    for cut in range(1, len(parts)):
        left, right = "-".join(parts[:cut]), "-".join(parts[cut:])
        if left in definitions and right in definitions:
            return snake(left.replace("-", "_")) + "-" + snake(right.replace("-", "_"))
    return snake(name.replace("-", "_"))


def fall_together(declared, renames):
    """A lemma that would have the name of a definition of its crate gets _lem."""
    owners = {}
    for path in sorted(declared, key=lambda p: os.sep + "proofs" + os.sep in p):
        crate = os.path.relpath(path, TOP).split(os.sep)[0]
        for n in declared[path]:
            first = owners.setdefault((crate, renames.get(n, n)), n)
            if first != n:
                renames[n] += "_lem"


def main():
    declared, local = {}, {}
    for path in files(".antt"):
        names = DECLARED.findall(read(path))
        if is_lemma_file(path):
            declared.setdefault(path, []).extend(names)
        else:
            local[path] = [n for n in names if not GOALS.match(n)]
    definitions = set(KNOWN)
    for path, names in declared.items():
        if os.sep + "specs" + os.sep in path:
            definitions.update(names)
    renames = {}
    for table in (declared, local):
        for path, names in table.items():
            for n in names:
                if n[0].islower():
                    renames[n] = spelled(n, definitions)
    fall_together(declared, renames)
    for path, names in {**declared, **local}.items():
        new = {}
        for n in dict.fromkeys(names):
            m = renames.get(n, n)
            if new.setdefault(m, n) != n:
                sys.exit(f"{path}: {n} and {new[m]} would both be {m}")
    for old, new in sorted(renames.items()):
        if old != new:
            print(f"{old} -> {new}")
    changed = 0
    for path in list(files(".antt")) + list(files(".rt")):
        text = read(path)
        turned = TOKEN.sub(lambda m: renames.get(m.group(0), m.group(0)) if turns(path, text, m) else m.group(0), text)
        if turned != text:
            changed += 1
            with open(path, "w", encoding="utf-8") as f:
                f.write(turned)
    print(f"{len([1 for o, n in renames.items() if o != n])} names, {changed} files")


def turns(path, text, m):
    """Whether this place may be respelled: in a .rt file only what no Rust name can be, and no string."""
    word = m.group(0)
    if path.endswith(".antt"):
        return True
    if not re.search(r"[A-Z-]", word):
        return False
    line = text[text.rfind("\n", 0, m.start()) + 1 : m.start()]
    return line.count('"') % 2 == 0


main()
