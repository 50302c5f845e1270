#!/usr/bin/env python3
"""Lists the places in src/ at which a newer form of the language could serve, point by point.

    python3 tools/design_places.py [DIRECTORY]

A place is where to look, not a verdict. Point 2 wants the command `duplicates`, which reads no .rt files: the script runs it over
a copy in which they end in .rs.
"""
import collections
import itertools
import os
import re
import shutil
import subprocess
import sys
import tempfile

top = sys.argv[1] if len(sys.argv) > 1 else "."


def files(folder, ending):
    for where, _, names in sorted(os.walk(os.path.join(top, "crates"))):
        parts = os.path.relpath(where, top).split(os.sep)
        if len(parts) > 2 and parts[2] == folder:
            for name in sorted(names):
                if name.endswith(ending):
                    yield os.path.join(where, name)


def read(path):
    with open(path, encoding="utf-8") as f:
        return f.read()


SOURCES = [(os.path.relpath(p, os.path.join(top, "crates")), read(p)) for p in files("src", ".rt")]


def line_of(text, place):
    return text.count("\n", 0, place) + 1


def bodies(kind):
    for path, text in SOURCES:
        for m in re.finditer(r"^( *)(?:pub(?:\(\w+\))? )?%s (\w+)[^{;]*\{\n(.*?)^\1\}" % kind, text, re.M | re.S):
            yield path, line_of(text, m.start()), m.group(2), m.group(3)


def show(title, places):
    print(f"{title}: {len(places)}")
    for place in places:
        print("   ", place)


def point_1():
    shapes = []
    for path, line, name, body in bodies("enum"):
        variants = re.findall(r"^\s+([A-Z]\w*)(\([^\n]*\))?,$", body, re.M)
        if len(variants) == 2 and any(v[1] for v in variants):
            shapes.append(f"{path}:{line} enum {name}")
    flags = []
    for path, line, name, body in bodies("struct"):
        fields = re.findall(r"^\s+(?:pub(?:\(\w+\))? )?(\w+): ([^\n]*),$", body, re.M)
        if any(t == "bool" for _, t in fields) and any(t != "bool" for _, t in fields):
            flags.append(f"{path}:{line} struct {name}")
    numbers = []
    for path, text in SOURCES:
        for m in re.finditer(r"^ *(?:pub(?:\(\w+\))? )?const (\w+): u(?:8|16|32|size) = ", text, re.M):
            if len(re.findall(r"[!=]= %s\b" % m.group(1), text)) > 0:
                numbers.append(f"{path}:{line_of(text, m.start())} const {m.group(1)} is compared as a kind")
        for m in re.finditer(r"\bnumber: u8\b|, u8, u32\)|, u8\); \d+\]|u8, u16\)", text):
            numbers.append(f"{path}:{line_of(text, m.start())} a refusal by its number")
    show("1a enums of the shape of Option or Result", shapes)
    show("1b a flag with a value beside it", flags)
    show("1c numbers for kinds or refusals", numbers)


def point_2():
    folder = tempfile.mkdtemp()
    try:
        for path, text in SOURCES:
            to = os.path.join(folder, path[:-3] + ".rs")
            os.makedirs(os.path.dirname(to), exist_ok=True)
            with open(to, "w", encoding="utf-8") as f:
                f.write(text)
        out = subprocess.run(
            ["duplicates", "--repo", folder, "--most", "200", "--seconds", "120"], capture_output=True, text=True
        ).stdout.split("\n")
    finally:
        shutil.rmtree(folder)
    rows = [row for row in out if re.match(r"D\d+ ", row) and "boilerplate" not in row]
    show("2 pairs of places that share six lines or more, or their shape", rows)


def point_3():
    counted = []
    for path, text in SOURCES:
        for m in re.finditer(r"^ *(?:'\w+: )?(?:loop \{|while |for \w+ in [^\n]*\.\.[^\n]*\{)", text, re.M):
            counted.append(f"{path}:{line_of(text, m.start())} {m.group(0).strip()}")
    show("3 loops over a range, `loop` and `while`", counted)


def point_4():
    by_hand = []
    names = r"PartialEq|Eq|PartialOrd|Ord|Hash|Clone|Copy|Default|Debug|Display|Error|From|TryFrom|Into"
    for path, text in SOURCES:
        for m in re.finditer(r"^impl(?:<[^{]*?>)? (?:\w+::)?(?:%s)(?:<.*>)? for \w+" % names, text, re.M):
            by_hand.append(f"{path}:{line_of(text, m.start())} {m.group(0)}")
    show("4 equality, order, copying, conversion and printing by hand", by_hand)


def point_5():
    facts = collections.defaultdict(set)
    groups = collections.defaultdict(set)
    for path, text in SOURCES:
        starts = [(m.start(), m.group(1)) for m in re.finditer(r"\bfn (\w+)", text)]
        for m in re.finditer(r"\b(?:requires|ensures)(?: \w+)? \{ (.*) \}$", text, re.M):
            name = [n for s, n in starts if s < m.start()]
            if name and re.match(r"\s*requires", text[text.rfind("\n", 0, m.start()) + 1 : m.end()]):
                facts[m.group(1)].add(f"{path}::{name[-1]}")
        for m in re.finditer(r"\bfn (\w+)(?:<[^(]*>)?\(([^)]*)\)", text):
            found = [p.strip() for p in re.sub(r"\s+", " ", m.group(2)).split(", ")]
            found = [p.strip(", ") for p in found if ":" in p]
            for three in itertools.combinations(found, 3):
                groups[path.split("/")[0], three].add(f"{path}::{m.group(1)}")
    show(
        "5a facts that three or more functions require",
        [f"{len(v)} x {k}" for k, v in sorted(facts.items(), key=lambda x: -len(x[1])) if len(v) >= 3],
    )
    show(
        "5b three parameters that four or more functions of one crate take together",
        [
            f"{len(v)} x {', '.join(three)} ({crate})"
            for (crate, three), v in sorted(groups.items(), key=lambda x: -len(x[1]))
            if len(v) >= 4
        ],
    )


def point_6():
    buffers = []
    for path, line, name, body in bodies("struct"):
        arrays = re.findall(r"(\w+): \[[^\n]*; \w+\]", body)
        if arrays:
            buffers.append(f"{path}:{line} struct {name}: {', '.join(arrays)}")
    show("6 structs with an array", buffers)


def point_7():
    switches = []
    for path, text in SOURCES:
        for m in re.finditer(r"\bmatch (?:\w+\.)*(step|how|call|access|request\.access|kind)\b", text):
            switches.append(f"{path}:{line_of(text, m.start())} {m.group(0)}")
        for m in re.finditer(r"\bfn\(|\bdyn ", text):
            switches.append(f"{path}:{line_of(text, m.start())} {m.group(0)}")
    show("7 switches on a step, tables of functions", switches)


def point_8():
    answers = list(files("proofs", "Answers.antt"))
    lemmas = [p for p in files("proofs", ".antt") if os.path.basename(p) not in ("Answers.antt", "Invariants.antt", "Lib.antt")]
    count = sum(len(re.findall(r"^pub [\w-]+ : goal\.", read(p), re.M)) for p in answers)
    own = sum(len(re.findall(r"^(?:pub )?[\w-]+ :(?: |$)", read(p), re.M)) for p in lemmas)
    lines = sum(read(p).count("\n") for p in files("proofs", ".antt"))
    print(f"8 answers: {count} in {len(answers)} files; lemmas: {own} in {len(lemmas)} files; {lines} lines of proofs")


for point in (point_1, point_2, point_3, point_4, point_5, point_6, point_7, point_8):
    point()
