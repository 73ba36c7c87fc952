#!/usr/bin/env python3
"""Lists the places in crates/*/src that still have an older form, point by point.

    python3 tools/design_places.py [FOLDER] [--lines]

Prints a count for each point and crate, and with --lines each place. A place is found by its text alone,
so a hit is a place to look at and not a verdict: docs/DESIGN-PASS.md says of each what became of it.
"""
import collections
import glob
import os
import re
import sys

args = [a for a in sys.argv[1:] if not a.startswith("--")]
root = args[0] if args else os.path.join(os.path.dirname(__file__), "..")
lines_wanted = "--lines" in sys.argv

files = sorted(glob.glob(os.path.join(root, "crates/*/src/**/*.rt"), recursive=True))
places = collections.defaultdict(list)


def add(point, path, line, text):
    places[point].append((os.path.relpath(path, root), line, text.strip()))


def without_tests(text):
    return text.split("#[cfg(test)]")[0]


def opening(text, at):
    """Where the parameters of a function begin, whose name ends at `at`: behind its type parameters."""
    depth = 0
    while at < len(text):
        if text.startswith("->", at):
            at += 2
            continue
        if text[at] == "<":
            depth += 1
        elif text[at] == ">":
            depth -= 1
        elif text[at] == "(" and depth == 0:
            return at
        at += 1
    return at


def functions(text):
    """Each function: its name, line, head, parameters and body."""
    for m in re.finditer(r"^( *)(?:pub(?:\([a-z]+\))? )?fn (\w+)", text, re.M):
        indent = m.group(1)
        begin = opening(text, m.end())
        end = re.compile(r"^%s\}|^\{\}$" % indent, re.M).search(text, begin)
        whole = text[m.start():end.end() if end else len(text)]
        params = whole[begin - m.start() + 1:]
        brace = re.search(r"^%s\{|\{$" % indent, params, re.M)
        head = whole[:begin - m.start() + 1] + (params[:brace.start()] if brace else params)
        body = params[brace.start():] if brace else ""
        yield m.group(2), text.count("\n", 0, m.start()) + 1, head, params, body


# 1: numbers, flags and enums where Option, Result or an enum says more
FLAG = re.compile(r"^\s*(?:pub )?(kind|known|kinds): (u8|bool|\[u8; 4\]),")
CODE = re.compile(r"^\s*(?:pub(?:\([a-z]+\))? )?const (INTERNAL|MEETING|OUTSIDE\w*|NOTHING|STOPPED|UNUSED): u8")
for path in files:
    text = without_tests(open(path).read())
    for n, line in enumerate(text.split("\n"), 1):
        if FLAG.match(line) or CODE.match(line):
            add("1", path, n, line)
        if re.search(r"-> Option<StepRefusal>", line):
            add("1", path, n, line)
        if re.match(r"\s*pub role: Role,", line) and "channel" in text.split(line)[1].split("}")[0]:
            add("1", path, n, line)
    for m in re.finditer(r"^(?:pub )?enum (\w+)[^{]*\{(.*?)^\}", text, re.M | re.S):
        body = re.sub(r"//.*", "", m.group(2))
        variants = re.findall(r"^\s*(\w+)(\([^)]*\))?,", body, re.M)
        with_value = [v for v in variants if v[1]]
        if len(variants) in (2, 3) and len(with_value) == 1:
            add("1", path, text.count("\n", 0, m.start()) + 1, "enum " + m.group(1))
    for name, n, head, params, body in functions(text):
        if re.search(r"\) -> bool", head) and name in ("append", "list", "list_first"):
            add("1", path, n, "fn %s -> bool" % name)
        if name == "take_line" and "anyhow::Result<bool>" in head:
            add("1", path, n, "fn take_line -> bool")

# 2: functions of one shape (names, strings and numbers aside), of 20 tokens or more
shapes = collections.defaultdict(list)
for path in files:
    text = without_tests(open(path).read())
    for name, n, head, params, body in functions(text):
        tokens = re.findall(r"\"[^\"]*\"|\w+|[^\w\s]", re.sub(r"//.*", "", body))
        shape = tuple("w" if re.match(r"\w|\"", t) else t for t in tokens)
        if len(shape) >= 20:
            shapes[shape].append((path, n, name))
for group in shapes.values():
    if len(group) > 1:
        for path, n, name in group:
            others = ", ".join(g[2] for g in group if g is not None and g[2] != name)
            add("2", path, n, "fn %s as %s" % (name, others or "its namesake"))

# 3: loops over counted numbers, and loops that a method of the library replaces (a `for _` repeats and counts nothing)
for path in files:
    text = without_tests(open(path).read())
    for n, line in enumerate(text.split("\n"), 1):
        if re.search(r"for [a-z]\w* in [\w.]+\.\.|while ", line) and "//" not in line.split("for")[0]:
            add("3", path, n, line)
    for name, n, head, params, body in functions(text):
        if re.search(r"for [^{]*\{\s*(if|let)[^{]*\{\s*return (true|false|Some\(i\));", body) and not re.search(r"in \w+\.\.", body):
            add("3", path, n, "fn %s: a search" % name)
        if re.search(r"\[[01]\].*\[[12]\]", body.replace("\n", " ")) or re.search(r"\(\w+, 0\),\s*\w+\(\w+, 1\)", body):
            add("3", path, n, "fn %s: index by index" % name)

# 4: equality, conversion and printing written by hand
HAND = re.compile(r"^(same_\w+|number|of_number|of_name|of|text|kind_name|kind_or_integer|print_row|print_action|print_send|print_receive|print_check|print_hex_fault|show_leaf|show_hide|agrees|is_in)$")
for path in files:
    text = without_tests(open(path).read())
    for name, n, head, params, body in functions(text):
        if HAND.match(name):
            add("4", path, n, "fn " + name)

# 5: a clause, its names aside, in three or more functions of a crate; two parameters or more in three or more
for crate in sorted(set(p.split("/crates/")[1].split("/")[0] for p in files)):
    clauses, groups = collections.defaultdict(list), collections.defaultdict(list)
    for path in files:
        if "/crates/%s/" % crate not in path:
            continue
        text = without_tests(open(path).read())
        for name, n, head, params, body in functions(text):
            for clause in set(re.findall(r"requires(?: \w+)? \{ (.*) \}", head)):
                clauses[clause].append((path, n, name))
            typed = re.findall(r"(\w+): ([^,)\n]+)", params.split("requires")[0].split("ensures")[0])
            kept = tuple(sorted(set(t for t in typed if t[0] in ("file", "at", "variables", "scope", "class", "classes", "entry", "rows", "words", "rt", "level", "left", "offers", "arrivals", "out", "closed", "cursor"))))
            if len(kept) >= 2:
                for i in range(len(kept)):
                    for j in range(i + 1, len(kept)):
                        groups[(kept[i], kept[j])].append((path, n, name))
    for clause, where in clauses.items():
        if len(where) >= 3:
            add("5", where[0][0], where[0][1], "%d times: %s" % (len(where), clause))
    for pair, where in groups.items():
        if len(where) >= 3:
            add("5", where[0][0], where[0][1], "%d times together: %s" % (len(where), " and ".join(": ".join(p) for p in pair)))

# 6: memory with a length beside it
for path in files:
    text = without_tests(open(path).read())
    for m in re.finditer(r"struct (\w+)[^{;]*\{(.*?)^\}", text, re.M | re.S):
        body = re.sub(r"//.*", "", m.group(2))
        if re.search(r": (\[|&'a mut \[)", body) and re.search(r"(count|length|variables|at): (u8|usize)", body):
            add("6", path, text.count("\n", 0, m.start()) + 1, "struct " + m.group(1))

# 7: a switch on which function to call
for path in files:
    text = without_tests(open(path).read())
    for name, n, head, params, body in functions(text):
        if re.search(r"match (role|way|which)\b", body):
            add("7", path, n, "fn " + name)

# 8: answers in proofs/ (files and lines), by crate
for path in sorted(glob.glob(os.path.join(root, "crates/*/proofs/**/Answers.antt"), recursive=True)):
    count = len(re.findall(r"^pub [\w-]+ : goal\.", open(path).read(), re.M))
    for _ in range(count):
        places["8"].append((os.path.relpath(path, root), 0, "answer"))

for point in sorted(places):
    by = collections.Counter(p[0].split("/")[1] for p in places[point])
    print("point %s: %d places (%s)" % (point, len(places[point]), ", ".join("%s %d" % kv for kv in sorted(by.items()))))
    if lines_wanted and point != "8":
        for path, n, text in places[point]:
            print("    %s:%d: %s" % (path, n, text))
