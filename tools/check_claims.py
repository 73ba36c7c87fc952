#!/usr/bin/env python3
"""Holds the tables of claims in README.md and docs/ to the source.

A table with the columns Function and Clause names, in each row, functions and clauses of them. `python3
tools/check_claims.py` looks each one up in crates/*/src: a clause is the label of an `ensures`, `-` is one without a
label, and what is no function is an item of an `impl`, a trait or a struct (`Display for Stop`, `output`). Behind a
clause `:` and names are fields of a record of specs/, which are looked up there. In README.md the heading above a table
names the crates. docs/CALLS.md is to name every clause of the engine's calls.
"""
import glob, os, re, sys

TOP = os.path.join(os.path.dirname(os.path.abspath(__file__)), "..")
OTHER_NAMES = {"StepTable": "Lent", "Journal": "Lent"}    # types that are another one at a type of records

def plain(header):
    """the name of an impl's or a type's header: without parameters, paths and bounds"""
    h = re.sub(r"^impl\s*<[^{]*?>\s+(?=[A-Z&(])", "impl ", header)
    h = re.sub(r"^(pub(\(crate\))? )?(impl|trait|struct|enum)\s+", "", h)
    h = re.sub(r"\b\w+::", "", h.split("{")[0].split(" where ")[0]).strip()
    h = re.sub(r"<'_>|<'a>|'a ", "", h)
    return re.sub(r"^(\w+)(<[^>]*>)?(: .*)?$", r"\1", h) if " for " not in h else re.sub(r" for (\w+)(<.*>)?$", r" for \1", h)

def clauses_of(path):
    """name -> its clauses, of one source file"""
    found, owner, name = {}, "", ""
    for line in open(path, encoding="utf-8"):
        if re.match(r"(pub(\(crate\))? )?(impl|trait|struct|enum)\b", line): owner = name = plain(line.rstrip("\n{ "))
        elif re.match(r"(pub(\(crate\))? )?fn |const |mod |#\[cfg\(test", line): owner = ""
        f = re.match(r"\s*(?:pub(?:\(\w+\))? )?fn (\w+)", line)
        if f:
            name = (owner + "::" if owner else "") + f.group(1)
            found.setdefault(name, set())
        if line.startswith("const _"): found.setdefault("const _", set()).add("prove!")
        g = re.match(r"    ghost (\w+)\s*[:=]", line)
        if g: found.setdefault(owner, set()).add(g.group(1))
        e = re.match(r"\s*ensures (\w+ )?\{", line)
        if e: found.setdefault(name, set()).add((e.group(1) or "-").strip())
    return found

def source():
    """crate -> name -> clauses; a function also goes by its file, as `laws::promises`"""
    crates = {}
    for path in glob.glob(os.path.join(TOP, "crates/*/src/**/*.rt"), recursive=True):
        crate = os.path.relpath(path, os.path.join(TOP, "crates")).split(os.sep)[0]
        here = crates.setdefault(crate, {})
        for name, clauses in clauses_of(path).items():
            here.setdefault(name, set()).update(clauses)
            here.setdefault(os.path.basename(path)[:-3] + "::" + name, set()).update(clauses)
    return crates

def fields():
    """the names of all fields and definitions of specs/"""
    text = "".join(open(p, encoding="utf-8").read() for p in glob.glob(os.path.join(TOP, "crates/*/specs/*.antt")))
    return set(re.findall(r"(?:pub|abbrev pub|unfoldable pub|pub record) (\w+)\s*(?:\(|:)", text)) | set(re.findall(r"pub record (\w+)", text))

def rows(text):
    """crates of the heading, functions and clauses of each row of a table with the columns Function and Clause"""
    crates, columns, function = [], None, ""
    for line in text.split("\n"):
        if line.startswith("#"): crates = re.findall(r"`(\w+)`", line)
        if not line.startswith("|"): columns = None; continue
        cells = [c.strip() for c in line.strip("|").split("|")]
        if columns is None: columns = cells
        elif "Function" in columns and "Clause" in columns and not set(line) <= set("|- "):
            function = cells[columns.index("Function")] or function      # an empty cell: that of the row above
            yield crates, function, cells[columns.index("Clause")]

def main():
    crates, names, named, count, bad = source(), fields(), {}, 0, []
    for page in ["README.md"] + sorted(glob.glob("docs/*.md", root_dir=TOP)):
        for inside, functions, clauses in rows(open(os.path.join(TOP, page), encoding="utf-8").read()):
            tables = [crates[c] for c in inside if c in crates] or list(crates.values())
            marks = clauses.split(":")
            labels = [a or b for a, b in re.findall(r"`([\w!]+)`|(-)", marks[0])]
            has = {}
            for f in re.findall(r"`([^`]+)`", functions):
                head, _, tail = f.partition("::")
                g = OTHER_NAMES[head] + "::" + tail if head in OTHER_NAMES else f
                has[f] = set().union(*(t[g] for t in tables if g in t))
            for label in labels:
                count += 1
                if not any(label in h for h in has.values()): bad.append("%s: no clause %s in %s" % (page, label, functions))
            for f, h in has.items():
                if not h.intersection(labels): bad.append("%s: %s has none of the clauses %s" % (page, f, clauses))
                if page.endswith("CALLS.md"): named.setdefault(f, set()).update(labels)
            for field in re.findall(r"`(\w+)`", ":".join(marks[1:])):
                count += 1
                if field not in names: bad.append("%s: no field %s" % (page, field))
    for crate in ("engine", "calling"):                       # docs/CALLS.md names every clause of a call
        for f, h in crates[crate].items():
            if f.startswith("Engine::") or f in ("perform", "perform_all"):
                bad += ["docs/CALLS.md: %s of %s is missing" % (label, f) for label in h - named.get(f, set())]
    print("\n".join(bad + ["%d clauses looked up, %d not found" % (count, len(bad))]))
    return 1 if bad else 0

if __name__ == "__main__":
    sys.exit(main())
