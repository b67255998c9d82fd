#!/usr/bin/env python3
"""Respells the repository's own names in definitions, lemmas and clauses: words in snake case, facts in camel case.

usage: respell.py [--check] TOP

A name is one that a file of specs/ or proofs/ declares and that has a dash: `nearest-double` becomes `nearest_double`,
and a name with a capital, as `Reads-encodings`, becomes `ReadsEncodings`. The names of goals stay: they are the
toolchain's. In .rt files only `ghost use` items, clauses and ghost members turn; comments, strings and code stay.
--check writes nothing. The script prints each name with its new spelling, and stops where two names would fall together.
"""
import glob
import os
import re
import sys

WORD = r"[^\s(){}.;,@\"«»]+"
STOPS = r"[\s(){}.;,@\"«»]"
GOAL_FILES = ("Answers.antt", "Invariants.antt", "Proof.antt")

# a function of the source has the name that these would get
OTHERWISE = {"is-text": "is_text_lem", "tell-pair": "tell_a_pair"}


def declared(text, goals):
    """The names that a file declares: items, constructors, fields, names of local modules' items and of imports by `as`."""
    names = set()
    for line in text.split("\n"):
        if line.lstrip().startswith("--"):
            continue
        m = re.match(rf"\s*(?:(?:abbrev|unfoldable)\s+)?(?:pub\s+)?(?:data\s+|record\s+|ruleset\s+)?({WORD})(?:\s+[({{][^=]*)?\s+:(?:\s|$)", line)
        if m and not (goals and re.search(r":\s+goal\.", line)):
            names.add(m.group(1))
        m = re.match(rf"\s*(?:let\s+|where\s+)({WORD})(?:\s+:|\s+=)", line)
        if m:
            names.add(m.group(1))
        m = re.match(rf"use\s+\S+\s+as\s+({WORD})$", line)
        if m:
            names.add(m.group(1))
    return {n for n in names if "-" in n and re.fullmatch(r"[A-Za-z][\w'-]*", n)}


def respelled(name):
    if name in OTHERWISE:
        return OTHERWISE[name]
    if name[0].isupper():
        return "".join(p[:1].upper() + p[1:] for p in name.split("-"))
    return name.replace("-", "_")


def turned(text, table):
    """The text with each whole word of the table turned; behind `c.` stand the toolchain's names of steps."""
    return re.sub(rf"(?:(?<={STOPS})(?<!\bc\.)|^){WORD}", lambda m: table.get(m.group(0), m.group(0)), text, flags=re.M)


def turned_antt(text, table):
    """Code turns, comments stay."""
    lines = []
    for line in text.split("\n"):
        m = re.search(r"(?:^|\s)--(?:\s|$)", line)
        cut = m.start() if m else len(line)
        lines.append(turned(line[:cut], table) + line[cut:])
    return "\n".join(lines)


def turned_rt(text, table):
    """Only `ghost use` items, clauses and ghost members turn."""
    lines = []
    for line in text.split("\n"):
        head = line.lstrip()
        if re.match(r"(ghost|requires|ensures)\b", head):
            line = turned(line, table)
        lines.append(line)
    return "\n".join(lines)


def turned_edit(text, table):
    """The texts of an edit, as the file that it edits."""
    lines, kind = [], turned_rt
    for line in text.split("\n"):
        if line.startswith("file:"):
            kind = turned_antt if line.strip().endswith(".antt") else turned_rt
        elif line.startswith(("old:", "new:")):
            head, body = line[:4], line[4:]
            line = head + kind(body, table)
        lines.append(line)
    return "\n".join(lines)


def main():
    args = sys.argv[1:]
    check = "--check" in args
    top = [a for a in args if a != "--check"][0]
    antt = sorted(glob.glob(f"{top}/crates/*/specs/**/*.antt", recursive=True) + glob.glob(f"{top}/crates/*/proofs/**/*.antt", recursive=True))
    source = sorted(glob.glob(f"{top}/crates/*/src/**/*.rt", recursive=True))
    edits = sorted(glob.glob(f"{top}/crates/*/must-fail/*.edit"))
    texts = {f: open(f, encoding="utf-8").read() for f in antt + source + edits}
    names = set()
    for f in antt:
        names |= declared(texts[f], os.path.basename(f) in GOAL_FILES)
    table = {n: respelled(n) for n in sorted(names)}
    bad = []
    for f in antt + source:
        words = set(re.findall(WORD, texts[f]))
        bad += [f"{f}: {n} falls together with {table[n]}" for n in sorted(words & set(table)) if table[n] in words]
    for old, new in table.items():
        print(f"{old}\t{new}")
    bad += [f"{n}: falls together" for n, new in table.items() if list(table.values()).count(new) > 1]
    if bad:
        print("\n".join(bad), file=sys.stderr)
        sys.exit(1)
    if check:
        return
    for f in antt:
        put(f, texts[f], turned_antt(texts[f], table))
    for f in source:
        put(f, texts[f], turned_rt(texts[f], table))
    for f in edits:
        put(f, texts[f], turned_edit(texts[f], table))


def put(path, old, new):
    if old != new:
        with open(path, "w", encoding="utf-8") as f:
            f.write(new)


main()
