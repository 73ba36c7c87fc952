#!/usr/bin/env python3
"""Spells this repository's own definitions and lemmas as the library spells its names: words in snake case, types in camel case.

usage: tools/respell.py [--list]    at the top of the repository, once, after the kit's port.py

Every name with a dash that specs/ or proofs/ declares gets underscores for its dashes, and a name that begins with a
capital (a type or a fact) gets capitals. Names that Rattle makes, the library's names and Rust's code stay. --list prints
the table and what would fall together, and writes nothing.
"""

import collections
import glob
import re
import sys

ANSWERS = re.compile(r"/(Answers|Invariants|Proof)(/.*)?\.antt$")
WORD = r"""[^\s(){}\[\].;,@"«»|λ]+"""


def bare(text):
    return re.sub(r"(?m)(^|\s)--.*", "", text)


def declared():
    names = collections.defaultdict(set)
    files = glob.glob("crates/*/specs/**/*.antt", recursive=True) + glob.glob("crates/*/proofs/**/*.antt", recursive=True)
    for path in sorted(files):
        if ANSWERS.search(path):
            continue
        text = bare(open(path, encoding="utf-8").read())
        found = re.findall(rf"(?m)^ *(?:(?:pub|abbrev|unfoldable|record|data|mutual) +)*({WORD})(?=(?: +[({{][^:]*:| *:))", text)
        for it in re.findall(r"[({]((?:[^\s(){}.;,:]+ +)*[^\s(){}.;,:]+) *:", text):
            found += it.split()
        found += re.findall(r"let +([^\s(){}.;,:=]+)", text)
        for it in re.findall(r"λ +([^.]*)\.", text):
            found += re.findall(r"[^\s(),]+", it)
        for it in found:
            if "-" in it and re.match(r"[A-Za-z]", it):
                names[it].add(path)
    for path in files + glob.glob("crates/*/src/**/*.rt", recursive=True):
        for use in re.findall(r"use Rattle[^;\n]*", open(path, encoding="utf-8").read()):
            for it in re.findall(r" as ([A-Za-z][\w']*-[\w'-]*)", use):
                names[it].add(path)
    return names


def spelled(name):
    if name[0].isupper():
        return "".join(it[:1].upper() + it[1:] for it in name.split("-"))
    return name.replace("-", "_")


def library(text):
    """The names that a file imports from the library."""
    names = set()
    for it in re.findall(r"use Rattle\.(?:std|core)\.[^{;\n]*\{([^}]*)\}", text):
        names |= set(re.findall(r"[^\s,]+", it))
    return names


def turned(code, table, leave):
    return re.sub(WORD, lambda m: m.group(0) if m.group(0) in leave else table.get(m.group(0), m.group(0)), code)


def antt(text, table, leave):
    out = []
    for line in text.split("\n"):
        m = re.search(r"(^|\s)--", line)
        code, comment = (line, "") if not m else (line[: m.start()], line[m.start() :])
        comment = re.sub(WORD, lambda w: table.get(w.group(0), w.group(0)) if w.group(0)[0].isupper() or "`" in comment else w.group(0), comment)
        out.append(turned(code, table, leave) + comment)
    return "\n".join(out)


CLAUSE = re.compile(r"\b(?:requires|ensures)\*?(?: +\w+)? *\{|\bghost +\w+ *[:=] *\{")


def rust(text, table, leave):
    """The clauses, ghost members and ghost uses of a source file."""
    out, at = [], 0
    starts = [m.end() for m in CLAUSE.finditer(text)]
    spans = [(m.start(), m.end()) for m in re.finditer(r"ghost use [^;]*;", text)]
    for start in starts:
        depth, end = 1, start
        while depth:
            depth += {"{": 1, "}": -1}.get(text[end], 0)
            end += 1
        spans.append((start, end))
    for start, end in sorted(spans):
        if start < at:
            continue
        out += [text[at:start], turned(text[start:end], table, leave)]
        at = end
    return "".join(out + [text[at:]])


def falls_together(table, names):
    """New spellings that some file has already, of whatever kind."""
    said = []
    new = collections.defaultdict(set)
    for old, it in table.items():
        new[it].add(old)
    said += [f"{sorted(olds)} would all be {it}" for it, olds in new.items() if len(olds) > 1]
    for path in glob.glob("crates/*/*/**/*.antt", recursive=True) + glob.glob("crates/*/src/**/*.rt", recursive=True):
        text = open(path, encoding="utf-8").read()
        words = set(re.findall(WORD, bare(text) if path.endswith(".antt") else text))
        used = {w for w in words if w in table}
        for w in sorted(used):
            if table[w] in words and not (path.endswith(".rt") and re.search(rf"\bfn {table[w]}\b", text)):
                said.append(f"{path}: {w} beside {table[w]}")
    return said


def main():
    names = declared()
    table = {it: spelled(it) for it in names}
    if "--list" in sys.argv:
        for it in sorted(table):
            print(f"{it}\t{table[it]}")
        print("\n".join(falls_together(table, names)))
        return
    for path in glob.glob("crates/*/specs/**/*.antt", recursive=True) + glob.glob("crates/*/proofs/**/*.antt", recursive=True):
        text = open(path, encoding="utf-8").read()
        new = antt(text, table, library(text))
        if new != text:
            open(path, "w", encoding="utf-8").write(new)
    for path in glob.glob("crates/*/src/**/*.rt", recursive=True):
        text = open(path, encoding="utf-8").read()
        new = rust(text, table, library(text))
        if new != text:
            open(path, "w", encoding="utf-8").write(new)


main()
