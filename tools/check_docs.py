#!/usr/bin/env python3
"""Holds every example of docs/ to the rules, as tools/oracle.py states them.

`python3 tools/check_docs.py` reads the pages and runs all checks, with random
models and questions beside them.
"""
import itertools, os, random, re, sys
from oracle import *

DOCS = os.environ.get("DOCS", os.path.join(os.path.dirname(os.path.abspath(__file__)), "..", "docs"))

# ---------------------------------------------------------------- the models of the pages

SITE = enc_file(
    [([(I, None)],
      [(1, 0, 0, (I,)), (0, 1, 0, (I,))],
      ("SEQ", ("RECV", 0, 0, [0]),
       ("DO", ("LESS", ("INT", 0), ("VAR", 0)),
        ("SEQ", ("SEND", 1, 0, [("VAR", 0)]),
         ("SET", 0, ("SUB", ("VAR", 0), ("INT", 1))))))),
     ([(I, None)],
      [(1, 4, 0, (I,)), (0, 9, 1, (I,))],
      ("SEQ", ("RECV", 4, 0, [0]),
       ("SEL", ("GUARD", ("LESS", ("VAR", 0), ("INT", 1)), ("SKIP",)),
        ("SEND", 9, 1, [("VAR", 0)]))))],
    ("HIDE", [1], ("PAR", ("PROC", 0), ("RENAME", 4, 1, ("PAR", ("PROC", 1), ("PROC", 1))))))

LOOPS = enc_file([([], [], ("DO", ("BOOL", 1), ("SKIP",)))], ("PAR", ("PROC", 0), ("PROC", 0)))

A = unhex("""50 53 01 02 16 00 01 01 01 07 00 00 00 01 00 01 02 01 01 00 00 00 22 01 02 01 04 00 18 00
01 01 01 00 00 00 00 01 01 01 02 01 01 00 00 00 23 01 02 01 00 FF FF FF 42 02 00 00 00 41 40 00 40 00 40 01""")

def put(b, at, x):
    b = bytearray(b); b[at] = x; return bytes(b)

def nots(n):
    e = ("BOOL", 1)
    for _ in range(n): e = ("NOT", e)
    return enc_file([([(B, None)], [], ("SET", 0, e))], ("PROC", 0))

def sel(n):
    s = ("SKIP",)
    for _ in range(n - 1): s = ("SEL", ("SKIP",), s)
    return enc_file([([], [], s)], ("PROC", 0))

def guard_unknown():
    return enc_file([([], [], ("GUARD", ("BOOL", 2), ("SKIP",)))], ("PROC", 0))

def full_house():
    def eight(x):
        s = x
        for _ in range(7): s = ("SEL", x, s)
        return s
    b = None
    for i in range(8):
        p = ("PROC", 0 if i < 4 else 1)
        b = p if b is None else ("PAR", b, p)
    return enc_file([([], [(0, 0, 0, ())], eight(("SEND", 0, 0, []))),
                     ([], [(1, 0, 0, ())], eight(("RECV", 0, 0, [])))], b)

def st(s): return " ".join(map(str, s))

def dump(f):
    """annotated places of an admitted file"""
    data = f.data
    rows = [(0, 4, "header")]
    def walk(n, ind):
        own = n.place + 1 + len(n.ops)
        rows.append((n.place, own, "  " * ind + n.name))
        for p in n.parts: walk(p, ind + 1)
    for i, c in enumerate(f.classes):
        rows.append((c.place, c.place + 2, "class %d length" % i))
        q = c.start
        rows.append((q, q + 1, "variables")); q += 1
        for v in c.vars: rows.append((q, q + 6, "var " + show(v))); q += 6
        rows.append((q, q + 1, "declarations")); q += 1
        for d in c.decls: rows.append((q, q + 8, "decl %r" % (d,))); q += 8
        walk(c.statement, 0)
    walk(f.behaviour, 0)
    for a, b, t in rows: print("| %d–%d | %s | %s" % (a, b - 1, hexs(data[a:b]), t))

def show_state(m):
    for i, p in enumerate(m.procs):
        fs = [(n, a, l) for n, a, l in proc_fronts(m, i)]
        print("   p%d left %s vars %s waits %s fronts %s" % (i, list(p.left), [show(v) for v in p.vars],
              waits_of(p.left[0], p.vars) if p.left else [], [(n, a[:4], list(l)) for n, a, l in fs]))
    for s in steps(m): print("   step", st(s))

# ---------------------------------------------------------------- checks of the pages

def page(name):
    with open(os.path.join(DOCS, name), encoding="utf-8") as fh: return fh.read()

def cells(line):
    return [c.strip() for c in line.strip().strip("|").split("|")]

def rows_of(text):
    return [cells(l) for l in text.split("\n") if l.startswith("|") and not l.startswith("|---")]

def section(text, title):
    m = re.search(r"^#+ %s.*?$(.*?)(?=^#+ |\Z)" % re.escape(title), text, re.S | re.M)
    assert m, title
    return m.group(1)

def hex_blocks(text):
    out = []
    for b in re.findall(r"```[a-z]*\n(.*?)```", text, re.S):
        if re.fullmatch(r"[0-9A-F\s]+", b): out.append(unhex(b))
    return out

def ok(cond, what):
    if not cond: raise AssertionError(what)
    DONE.append(what)
DONE = []

def parse_val(s):
    return {"?i": IU, "?b": BU, "true": (B, 1), "false": (B, 0)}.get(s) or (I, int(s))

def annotated(text, data, depth_col):
    at, last = 0, None
    depths = {}
    if depth_col is not None:
        def walk(n):
            depths[n.place] = n.depth
            for p in n.parts: walk(p)
        f = check(data)
        for c in f.classes: walk(c.statement)
        walk(f.behaviour)
    for r in rows_of(text):
        m = re.fullmatch(r"(\d+)(?:–(\d+))?", r[0])
        if not m or not re.fullmatch(r"[0-9A-F]{2}( [0-9A-F]{2})*", r[1]): continue
        a, b = int(m.group(1)), int(m.group(2) or m.group(1))
        ok(a == at, "annotation is contiguous at %d" % a)
        ok(unhex(r[1]) == data[a:b + 1], "annotated bytes at %d" % a)
        if depth_col is not None:
            ok(r[depth_col] == str(depths.get(a, "")), "depth at %d" % a)
            for m in re.finditer(r"(?:second part|statement) at (\d+)", r[-1]):
                ok(w2(data[a + 1:a + 3]) == int(m.group(1)), "place operand named at %d" % a)
        at = b + 1
    ok(at == len(data), "annotation covers the file")

def check_values():
    t = page("VALUES.md")
    for r in rows_of(t):
        if len(r) == 3 and r[0] != "a" and re.fullmatch(r"-?\d+|\?i", r[0]) and re.fullmatch(r"-?\d+|\?i", r[1]):
            ok(show(op("DIV", parse_val(r[0]), parse_val(r[1]))) == r[2], "DIV %s %s" % (r[0], r[1]))
    for name, key in (("AND", "AND"), ("OR", "OR"), ("SAME", "SAME, on Booleans")):
        i = t.index("| %s | true | false | ?b |" % key)
        tab = rows_of(t[i:].split("\n\n")[0])
        for r in tab[1:]:
            for c, x in zip(tab[0][1:], r[1:]):
                ok(show(op(name, parse_val(r[0].strip("*")), parse_val(c))) == x, "%s %s %s" % (name, r[0], c))
    i = t.index("| a | NOT a |")
    for r in rows_of(t[i:].split("\n\n")[0])[1:]:
        ok(show(op("NOT", parse_val(r[0]))) == r[1], "NOT " + r[0])
    for line, want in (("ADD 2147483647 1", "?i"), ("SUB -2147483648 1", "?i"), ("MUL 65536 32768", "?i"),
                       ("MUL -65536 32768", "-2147483648"), ("MUL ?i 0", "?i"), ("SAME ?i ?i", "?b")):
        ok("`%s`" % line in t and shell_eval(line)[-1] == "value " + want, line)
    # the table of rows, against every small row
    tab = [r for r in rows_of(section(t, "Rows")) if r[-1].startswith(("the Integer", "unknown", "true", "false"))]
    ok(len(tab) == 11, "eleven rows of the table")
    def fits(pat, x):
        if pat in ("any", "any n"): return True
        if pat == "not 0": return x != 0
        if pat == "not 0, not 1": return x not in (0, 1)
        return any(lo <= x <= hi for lo, hi in
                   (tuple(map(int, q.split(" to "))) if " to " in q else (int(q), int(q)) for q in pat.split(", ")))
    for k in (0, 1, 2, 3, 7, 255):
        for known in (0, 1, 2, 255):
            for n in (LO, -1, 0, 1, 2, HI):
                hit = [r for r in tab if fits(r[0], k) and fits(r[1], known) and fits(r[2], n)]
                ok(len(hit) == 1, "one row of the table for %r" % ((k, known, n),))
                v = value_of_row((k, known, n))
                want = {"the Integer n": (I, n), "unknown Integer": IU, "unknown Boolean": BU, "true": (B, 1), "false": (B, 0)}[hit[0][4]]
                ok(v == want and (hit[0][3] == "passes") == row_good((k, known, n)), "row %r" % ((k, known, n),))
                ok((row_of(v) == (k, known, n)) == row_good((k, known, n)), "row law")
                ok(row_good(row_of(v)) and value_of_row(row_of(v)) == v, "value law")
                if not row_good((k, known, n)): ok(row_of(v) == ((2, 0, 0) if k == 2 else (1, 0, 0)), "failed row")
    n = 0
    for r in rows_of(section(t, "The command `eval`")):
        if len(r) == 2 and r[0].startswith("`eval"):
            ok(shell_eval(r[0].strip("`")[4:]) == [r[1].strip("`")], r[0])
            n += 1
    ok(n == 8, "eight wrong lines")
    w = section(t, "Worked example")
    blocks = re.findall(r"```\n(.*?)```", w, re.S)
    ok(shell_eval(blocks[0].strip()[5:]) == blocks[1].strip().split("\n"), "worked example of eval")
    ok(shell_eval("7") == ["value 7"], "eval 7")
    ok(len(shell_eval("NOT " * 31 + "true")) == 32, "depth 32")
    ok(shell_eval("NOT " * 32 + "true") == ["wrong: word 33: expected at most 32 levels, found 'true'"], "depth 33")
    ok(shell_eval("NOT " * 32 + "1") == ["wrong: word 33: expected at most 32 levels, found '1'"], "deep before kind")
    ok(shell_eval("NOT " * 32 + "9999999999")[0].startswith("wrong: word 33: expected a number"), "range before deep")

def check_model_file():
    t = page("MODEL-FILE.md")
    w = section(t, "Worked example")
    ok(hex_blocks(w) == [SITE], "bytes of the build site")
    ok(len(SITE) == 155 and "155 bytes" in w, "length")
    annotated(w, SITE, 2)
    ok(check(SITE) is not None, "admitted")
    m = re.search(r"With byte (\d+) made ([0-9A-F]{2}) it is refused: (\d+), place (\d+), layer (\d+)", w)
    ok(fault_of(put(SITE, int(m.group(1)), int(m.group(2), 16))) == tuple(map(int, m.groups()[2:])), "damaged variant")
    bad = put(put(SITE, 141, 0x90), 144, 7)
    ok(fault_of(bad) == (6, 143, 5), "a fault in the first part comes before")
    bad = put(put(SITE, 141, 0x90), 146, 99)
    ok(fault_of(bad) == (4, 140, 5), "a fault in the second part does not")
    for k, (name, n) in itertools.chain(EXPR.items(), STMT.items(), BEHA.items()):
        r = [r for r in rows_of(section(t, "Commands")) if len(r) == 6 and r[1] == name][0]
        ok(int(r[0], 16) == k and int(r[3]) == n + 1, "command " + name)
    # remarks below the procedures
    deep = nots(31)
    ok(fault_of(put(deep, 47, 0x7F)) == (4, 47, 4), "unknown command at depth 33")
    nine = enc_file([([], [], ("SKIP",))], pars([("PROC", 0)] * 8 + [("PROC", 1)]))
    ok(fault_of(nine)[0] == 6, "ninth PROC of an absent class")
    nine = enc_file([([], [], ("SKIP",))], pars([("PROC", 0)] * 9))
    ok(fault_of(nine) == (10, len(nine) - 2, 5), "ninth PROC")
    ten = sel(10)
    ok(fault_of(ten) == (9, 12, 3), "the inner SEL is named")
    two = bytearray(enc_file([([], [], ("SKIP",)), ([], [], ("SKIP",))], ("PROC", 0)))
    two[8] = 0x7F; two[9] = 0xFF
    ok(fault_of(two) == (4, 8, 3), "class 0 before class 1's length")
    # boundaries said in the fault table
    H = bytes([0x50, 0x53, 1, 1])
    for d, want in ((b"", (1, 0, 1)), (H[:3], (1, 0, 1)), (bytes(4097), (1, 0, 1)), (bytes(4096), (2, 0, 1)),
                    (H, (3, 4, 2)), (H + b"\x01", (3, 4, 2)), (H + b"\x01\x00", (3, 4, 2)),
                    (H + b"\x00\x00", (3, 6, 2)), (put(H, 3, 9), (2, 3, 1)), (put(H, 3, 0), (2, 3, 1)),
                    (H + b"\x02\x00\x00\x00", (4, 8, 3)), (H + b"\x03\x00\x00\x00\x20", (4, 9, 5)),
                    (H + b"\x04\x00\x00\x00\x20\x20\x40\x00", (4, 9, 3)), (H + b"\x03\x00\x00\x00\x20\x40\x00\x00", (4, 11, 5)),
                    (H + b"\x02\x00\x09\x00", (3, 6, 2)), (H + b"\x02\x00\x01\x03", (3, 7, 2)),
                    (H + b"\x08\x00\x01\x02\x01\x02\x00\x00\x00\x00", (3, 9, 2)),
                    (H + b"\x08\x00\x01\x01\x00\x02\x00\x00\x00\x00", (3, 9, 2))):
        ok(fault_of(d) == want, "fault %r" % (want,))

def pars(ps):
    b = ps[0]
    for p in ps[1:]: b = ("PAR", b, p)
    return b

def check_behaviour():
    t = page("BEHAVIOUR.md")
    w = section(t, "Worked example")
    f = check(SITE)
    b = f.behaviour
    for r in rows_of(w):
        if r[0].startswith("process ") and len(r) == 5:
            for p in ([0] if r[0] == "process 0" else [1, 2]):
                c = int(r[1])
                if p: ok(str(at_par(b, 1, 2, c) if p == 1 else at_par(b, 2, 1, c)) == r[2], "at PAR 148")
                ok(str(at_par(b, p, 1 if p == 0 else 0, c)) == r[3], "at PAR 140")
                x = climb(b, p, c)
                ok((str(x) if x is not None else "stopped by HIDE") == r[4], "past the root")
    ok(lowest_par(b, 0, 1).place == 140 and lowest_par(b, 0, 2).place == 140 and lowest_par(b, 1, 2).place == 148, "lowest PARs")
    # states
    e, j = Engine(), Lst(99)
    e.load(SITE)
    states = []
    def snap():
        out = {}
        for i, p in enumerate(e.model.procs):
            fs = []
            for n, a, left in proc_fronts(e.model, i):
                l = " ".join(str(s.place) for s in left) or "none"
                if a[0] == "internal": d = "internal"
                elif a[0] == "set": d = "internal, v%d becomes %s" % (a[1], show(a[2]))
                elif a[0] == "send": d = "send %d %d, value %s" % (a[1], a[2], show(a[3][0]))
                else: d = "receive %d %d" % (a[1], a[2])
                fs.append("%d: %s → %s" % (n, d, l))
            out[str(i)] = (show(p.vars[0]), " ".join(str(s.place) for s in p.left) or "none",
                           ", ".join(str(s.place) for s in waits_of(p.left[0], p.vars)) if p.left else "",
                           "; ".join(fs) if p.left else "ended")
        states.append(out)
    takes = [((3, 0, 0, 255, 255, 0, 0), [(1, 1, 1)]), ((0, 0, 0, 255, 255, 255, 255), []), ((1, 0, 0, 1, 0, 1, 0), []),
             ((0, 0, 0, 255, 255, 255, 255), []), ((0, 0, 1, 255, 255, 255, 255), []), ((2, 1, 1, 255, 255, 9, 1), [])]
    snap()
    lists = [steps(e.model)]
    for s, v in takes:
        ok(e.take(s, v, j) == "ok", "take %r" % (s,))
        snap(); lists.append(steps(e.model))
    cur = None
    seen = 0
    for r in rows_of(w):
        if len(r) != 6 or r[1] == "Process": continue
        if r[0]: cur = int(re.match(r"\d+", r[0]).group())
        for p in r[1].split(", "):
            if r[5] == "as before": ok(states[cur][p] == states[cur - 1][p], "as before, state %d process %s" % (cur, p))
            else: ok(states[cur][p] == tuple(r[2:6]), "state %d process %s: %r %r" % (cur, p, states[cur][p], r[2:6]))
            seen += 1
    ok(seen == 20, "all rows of the states (%d)" % seen)
    ok(len(lists[2]) == 2 and lists[6] == [], "steps of states 2 and 6")
    e = Engine(); e.load(SITE); e.take((3, 0, 0, 255, 255, 0, 0), [(1, 0, 0)], j)
    ok([s[2] for s in steps(e.model)] == [0, 1], "unknown condition offers both")
    # the command fronts
    gap = enc_file([([], [], ("SEL", ("GUARD", ("BOOL", 2), ("SKIP",)), ("DO", ("BOOL", 2), ("SKIP",))))], ("PROC", 0))
    blocks = re.findall(r"```\n(.*?)\n```", section(t, "The command `fronts`"), re.S)
    ok([b.split("\n") for b in blocks] == [shell_fronts(hexs(SITE).split()), ["fronts " + hexs(gap)] + shell_fronts(hexs(gap).split())], "answers of fronts")
    # the command steps
    apart = enc_file([([], [(0, 1, 0, ())], ("SEND", 1, 0, [])), ([], [(1, 1, 0, ())], ("RECV", 1, 0, []))],
                     ("PAR", ("RENAME", 1, 2, ("PROC", 0)), ("PROC", 1)))
    blocks = re.findall(r"```\n(.*?)\n```", section(t, "The command `steps`"), re.S)
    ok([b.split("\n") for b in blocks] == [shell_steps(hexs(SITE).split()), shell_steps(hexs(put(A, 55, 0)).split()),
                                            ["steps " + hexs(apart)] + shell_steps(hexs(apart).split())], "answers of steps")

def check_calls():
    t = page("CALLS.md")
    w = section(t, "Worked example")
    e, T, J, R = Engine(), Lst(1088), Lst(8), Rotation()
    n = 0
    def seven(s): return tuple(map(int, s.split()))
    cursors = []
    for r in rows_of(w):
        if len(r) != 4 or not re.fullmatch(r"\d+", r[0]): continue
        c, a = r[1], r[2]
        n += 1
        before = (e.model.state(), list(J.items), list(T.items), R.cursor)
        if c == "`list`":
            ok(e.list(T) == "ok", "list")
            want = [] if "no steps" in a else [seven(x) for x in a.split(";")]
            ok(T.items == want, "list in call %d" % n)
            continue
        if c.startswith("`load`"):
            got = e.load(SITE if "155" in c else SITE[:154])
            text = "accepted" if got == "ok" else "%d, place %d, layer %d" % got
        elif "take" in c:
            if "the same" not in c:
                m = re.match(r"`take` ([\d ]+), (no values|row \((\d+), (\d+), (\d+)\))", c)
                last = (seven(m.group(1)), [] if m.group(2) == "no values" else [tuple(map(int, m.groups()[2:]))])
            k = len(J.items)
            got = e.take(last[0], last[1], J)
            text = "accepted, record %d" % k if got == "ok" else str(got)
        else:
            b = int(re.search(r"budget (\d+)", c).group(1))
            k = len(J.items)
            got = e.run(b, R, T if "1,087" not in c else Lst(1087), J)
            text = str(got)
            if isinstance(got, tuple):
                ok(len(J.items) - k == got[0], "count is growth")
                m = re.search(r"records (\d+) to (\d+)", r[3])
                if m: ok((k, len(J.items) - 1) == tuple(map(int, m.groups())), "records of call %d" % n)
        ok(text == a, "call %d answers %s" % (n, text))
        if got in (11, 12, 21, 22) or (isinstance(got, tuple) and len(got) == 3):
            ok(before == (e.model.state(), list(J.items), list(T.items), R.cursor), "a refusal leaves all, call %d" % n)
    ok(n == 15, "fifteen calls")
    recs = [r for r in rows_of(w) if len(r) == 5 and re.fullmatch(r"\d+", r[0])]
    ok(len(recs) == 8 == len(J.items), "eight records")
    for i, r in enumerate(recs):
        s, c, vs = J.items[i]
        ok((str(i), st(s), str(c), " ".join(map(show, vs))) == tuple(r[:4]), "record %d" % i)
    e2, T2, J2, R2 = Engine(), Lst(1088), Lst(8), Rotation()
    e2.load(SITE); e2.take((3, 0, 0, 255, 255, 0, 0), [(1, 1, 2)], J2); e2.run(1, R2, T2, J2)
    ok(R2.cursor == 1 and [st(s) for s in steps(e2.model)] == ["1 0 0 1 0 1 0", "1 0 0 2 0 1 0"], "second question of call 7")
    ok(len(steps(Model(check(full_house())))) == 1088, "1,088 is reached")
    best = max(i + s * r + s + r for s in range(65) for r in range(65 - s) for i in [64 - s - r])
    ok(best == 1088, "1,088 is the largest bound")

def check_choosers():
    t = page("CHOOSERS.md")
    w = section(t, "Worked example")
    rs = rows_of(w)
    Q = [tuple(map(int, r[1].split())) for r in rs if len(r) == 3 and r[0].isdigit()]
    ok(len(Q) == 4 and Q == sorted(Q), "four closed steps in order")
    R, S, H = Rotation(), Seniority(), Hold(3, Seniority())
    n = 0
    for r in rs:
        if len(r) != 7 or not r[0].isdigit(): continue
        n += 1
        want = [str(n), str(R.cursor)]
        want.append(str(R.choose(Q)))
        want.append(" ".join(map(str, S.order)))
        want.append(str(S.choose(Q)))
        want.append("%d, %s, %s" % (H.left, "none" if H.kept is None else H.kept, " ".join(map(str, H.below.order))))
        want.append(str(H.choose(Q)))
        ok(r == want, "turn %d: %r" % (n, want))
    ok(n == 8, "eight turns")
    ok(Hold(3, Seniority()).bound == 31 and "31" in section(t, "The installed chooser"), "bound 31")

def check_promises():
    t = page("PROMISES.md")
    w = section(t, "Worked example")
    ok(hex_blocks(w) == [LOOPS], "bytes of LOOPS")
    e, T, J, R, S = Engine(), Lst(1088), Lst(100), Rotation(), Script([0])
    asked = []
    class Spy:
        def choose(self, q):
            n = R.choose(q); asked.append((list(q), q[n])); return n
    n = 0
    for r in rows_of(w):
        if len(r) != 4 or not r[0].isdigit(): continue
        n += 1
        c, k = r[1], len(J.items)
        if "load" in c: got = "accepted" if e.load({"SITE": SITE, "LOOPS": LOOPS}[c.split()[-1]]) == "ok" else "?"
        elif "list" in c:
            e.list(T); got = "; ".join(map(st, T.items)) or "no steps"
        elif "take" in c:
            m = re.match(r"`take` ([\d ]+), (no rows|row \((\d+), (\d+), (\d+)\)), J", c)
            x = e.take(tuple(map(int, m.group(1).split())), [] if m.group(2) == "no rows" else [tuple(map(int, m.groups()[2:]))], J)
            got = "accepted" if x == "ok" else str(x)
        else:
            m = re.match(r"`run` budget (\d+), (R|S), T, J", c)
            got = str(e.run(int(m.group(1)), Spy() if m.group(2) == "R" else S, T, J))
        ok(got == r[2], "call %d: %s" % (n, got))
        if re.match(r"\d+: ", r[3]):
            text = []
            for i in range(k, len(J.items)):
                s, cnt, vs = J.items[i]
                text.append("%d: %s" % (i, st(s)) + (", count 1, value %s" % show(vs[0]) if cnt else ""))
            ok("; ".join(text) == r[3], "records of call %d" % n)
        elif r[3]:
            m = re.match(r"(\d+) to (\d+): steps of processes (.*)", r[3])
            ok((int(m.group(1)), int(m.group(2))) == (k, len(J.items) - 1), "record numbers")
            ok(", ".join(str(x[0][1]) for x in J.items[k:]) == m.group(3), "processes of the records")
        else: ok(len(J.items) == k, "no records")
    ok(n == 12, "twelve calls")
    ok(len(asked) == 12, "R picks twelve times")
    for p in (0, 1):
        ok(all(any(p in members(s) for s in q) for q, _ in asked[-8:]), "in a closed step")
        ok(sum(p in members(s) for _, s in asked[-8:]) == 4, "in four of eight")
    ok(not any(2 in members(s) for q, _ in asked[-8:] for s in q), "process 2 in none")
    ok(all(any(0 in members(s) for s in q) for q, _ in asked[:8]), "process 0 in the first eight")

def check_samples():
    t = page("SAMPLES.md")
    blocks = hex_blocks(t)
    ok(blocks == [A, guard_unknown(), nots(30), nots(31), sel(8), sel(9)], "bytes of the samples")
    annotated(section(t, "A: one meeting"), A, None)
    ok(len(A) == 66, "66 bytes")
    e, T, J = Engine(), Lst(1088), Lst(9)
    ok(e.load(A) == "ok" and steps(e.model) == [(1, 0, 0, 1, 0, 1, 2)], "sample A")
    e.take((1, 0, 0, 1, 0, 1, 2), [], J)
    ok(e.model.procs[1].vars == [(I, 7)] and steps(e.model) == [] and not any(p.left for p in e.model.procs), "sample A after")
    ok(J.items == [((1, 0, 0, 1, 0, 1, 2), 1, ((I, 7), IU, IU, IU))], "sample A record")
    b = steps(Model(check(put(A, 55, 0))))
    ok(", ".join(map(st, b)) in t and [s[0] for s in b] == [1, 2, 3], "sample B")
    ok(fault_of(A[:-1]) == (4, 64, 5), "sample C")
    ok(fault_of(put(A, 27, 1)) == (6, 26, 4), "sample D")
    ok(fault_of(put(A, 24, 3)) == (8, 22, 3), "sample E")
    for blk in re.findall(r"```\n(eval.*?)```", t, re.S):
        for part in re.findall(r"eval .*?\nvalue [^\n]*", blk, re.S):
            lines = part.split("\n")
            ok(shell_eval(lines[0][5:]) == lines[1:], lines[0])
    ok(steps(Model(check(guard_unknown()))) == [], "sample G")
    ok(len(nots(30)) == 50 and fault_of(nots(30)) is None, "sample H")
    ok(len(nots(31)) == 51 and fault_of(nots(31)) == (5, 47, 4), "sample H, one more")
    ok(len(sel(8)) == 39 and [s for s in steps(Model(check(sel(8))))] == [(0, 0, i, 255, 255, 255, 255) for i in range(8)], "sample I")
    ok(len(sel(9)) == 43 and fault_of(sel(9)) == (9, 8, 3), "sample I, one more")

# ---------------------------------------------------------------- laws said on the pages, tried at random

def rnd_expr(rng, kind, vs, d):
    c = [v for v in range(len(vs)) if vs[v][0] == kind]
    if d <= 0 or rng.random() < 0.4:
        if c and rng.random() < 0.6: return ("VAR", rng.choice(c))
        if kind == I: return rng.choice([("INT", rng.randint(-3, 3)), ("IUNK",)])
        return ("BOOL", rng.choice([0, 1, 1, 2]))
    if kind == I: return (rng.choice(["ADD", "SUB", "MUL", "DIV"]), rnd_expr(rng, I, vs, d - 1), rnd_expr(rng, I, vs, d - 1))
    o = rng.choice(["LESS", "SAME", "AND", "OR", "NOT"])
    if o == "NOT": return (o, rnd_expr(rng, B, vs, d - 1))
    k = I if o == "LESS" else B if o != "SAME" else rng.choice([I, B])
    return (o, rnd_expr(rng, k, vs, d - 1), rnd_expr(rng, k, vs, d - 1))

def rnd_stmt(rng, vs, ds, d):
    r = rng.random()
    if d <= 0 or r < 0.35:
        o = rng.choice(["SKIP", "SET", "SEND", "RECV", "SEND", "RECV"])
        if o == "SET" and vs:
            v = rng.randrange(len(vs)); return ("SET", v, rnd_expr(rng, vs[v][0], vs, 2))
        if o in ("SEND", "RECV"):
            c = [x for x in ds if x[0] == (o == "RECV")]
            rng.shuffle(c)
            for _, ch, m, ks in c:
                if o == "SEND": return ("SEND", ch, m, [rnd_expr(rng, k, vs, 1) for k in ks])
                pick, good = [], True
                for k in ks:
                    x = [v for v in range(len(vs)) if vs[v][0] == k and v not in pick]
                    if not x: good = False; break
                    pick.append(rng.choice(x))
                if good: return ("RECV", ch, m, pick)
        return ("SKIP",)
    o = rng.choice(["SEQ", "SEQ", "SEL", "GUARD", "IF", "DO"])
    sub = lambda: rnd_stmt(rng, vs, ds, d - 1)
    if o in ("SEQ", "SEL"): return (o, sub(), sub())
    if o == "IF": return (o, rnd_expr(rng, B, vs, 2), sub(), sub())
    return (o, rnd_expr(rng, B, vs, 2), sub())

def rnd_file(rng):
    cs = []
    for _ in range(rng.randint(1, 3)):
        vs = [(lambda k: (k, None if rng.random() < 0.3 else (rng.randint(-2, 2) if k == I else rng.randint(0, 1))))(rng.choice([I, B])) for _ in range(rng.randint(0, 4))]
        ds = [(rng.randint(0, 1), rng.randint(0, 2), rng.randint(0, 1), tuple(rng.choice([I, B]) for _ in range(rng.choice([0, 1, 1, 2])))) for _ in range(rng.randint(0, 6))]
        cs.append((vs, ds, rnd_stmt(rng, vs, ds, rng.choice([3, 5, 8]))))
    def beh(n):
        b = ("PROC", rng.randrange(len(cs))) if n == 1 else None
        if n > 1:
            k = rng.randint(1, n - 1)
            b = ("PAR", beh(k), beh(n - k))
        while rng.random() < 0.3:
            b = ("HIDE", [rng.randint(0, 2)], b) if rng.random() < 0.5 else ("RENAME", rng.randint(0, 2), rng.randint(0, 2), b)
        return b
    return enc_file(cs, beh(rng.randint(1, 5)))

def tree_of(n, cls=None):
    """the encoder's tree of a checked node"""
    o, ps = n.ops, [tree_of(p) for p in n.parts]
    if n.name == "INT": return ("INT", w4s(o))
    if n.name in ("BOOL", "VAR", "PROC"): return (n.name, o[0])
    if n.name == "RECV": return ("RECV", o[0], o[1], list(o[3:3 + o[2]]))
    if n.name == "SEND": return ("SEND", o[0], o[1], ps)
    if n.name == "SET": return ("SET", o[0], ps[0])
    if n.name == "HIDE": return ("HIDE", [c for c in range(32) if w2(o) >> c & 1], ps[0])
    if n.name == "RENAME": return ("RENAME", o[0], o[1], ps[0])
    return tuple([n.name] + ps)

LAYERS = {1: {1}, 2: {1}, 3: {2}, 4: {3, 4, 5}, 5: {3, 4, 5}, 6: {3, 4, 5}, 7: {4}, 8: {3}, 9: {3}, 10: {5}}

def at_rest(m):
    """the promise of rest, by waiting and answering, not by steps"""
    w = []
    for i, p in enumerate(m.procs):
        w.append([(x, p) for x in waits_of(p.left[0], p.vars)] if p.left else [])
    def answered(i, x, p):
        if climb(m.behaviour, i, x.ops[0]) is not None: return True
        for j in range(len(w)):
            if j == i: continue
            for y, q in w[j]:
                if {x.name, y.name} == {"SEND", "RECV"}:
                    a, b = at_par(m.behaviour, i, j, x.ops[0]), at_par(m.behaviour, j, i, y.ops[0])
                    if a is not None and a == b and x.ops[1] == y.ops[1] and x.kinds == y.kinds: return True
        return False
    for i in range(len(w)):
        for x, p in w[i]:
            if x.name == "GUARD": continue
            if x.name in ("SEND", "RECV") and not answered(i, x, p): continue
            return False
    return True

def keeps(m, rec):
    s, cnt, vs = rec
    kinds = tuple(v[0] for v in vs[:cnt])
    def one(p, other, direction):
        for d, ch, msg, ks in m.procs[p].cls.decls:
            arrive = at_par(m.behaviour, p, other, ch) if other is not None else climb(m.behaviour, p, ch)
            if d == direction and msg == s[6] and ks == kinds and arrive == s[5]: return True
        return False
    if s[0] == 1: return one(s[1], s[3], 0) and one(s[3], s[1], 1)
    if s[0] == 2: return one(s[1], None, 0)
    return one(s[1], None, 1)

def random_laws(seed=1, files=3000):
    rng = random.Random(seed)
    loaded = rests = taken = 0
    faults = {}
    for _ in range(files):
        d = rnd_file(rng)
        if len(d) > 4096: continue
        t = fault_of(d)
        for _ in range(6):
            x = bytearray(d)
            for _ in range(rng.randint(1, 2)):
                i = rng.randrange(len(x))
                x[i] = rng.choice([0, 1, 2, 0x20, 0x24, 0x40, 0x0D, 255, x[i] ^ 1, (x[i] + 1) % 256, rng.randrange(256)])
            if rng.random() < 0.2: x = x[:rng.randrange(len(x))]
            if rng.random() < 0.1: x = x + bytes([rng.randrange(256)])
            y = fault_of(x)
            if y:
                faults[(y[0], y[2])] = faults.get((y[0], y[2]), 0) + 1
                ok(y[2] in LAYERS[y[0]] and 0 <= y[1] <= len(x), "fault in the table")
            else:
                g = check(x)
                again = enc_file([(c.vars, c.decls, tree_of(c.statement)) for c in g.classes], tree_of(g.behaviour))
                ok(again == bytes(x), "an admitted file is the encoding of its tree")
        if t:
            ok(t[0] in (5, 9), "only depth or fronts can fail in a built file: %r" % (t,))
            continue
        loaded += 1
        m = Model(check(d))
        j = Lst(10 ** 6)
        e = Engine(); e.model = m
        for _ in range(25):
            ss = steps(m)
            ok(len(ss) == len(set(ss)) <= 1088, "no step twice")
            order = [(s[0],) + s[1:5] for s in ss]
            ok(order == sorted(order), "order of the list")
            ok((ss == []) == at_rest(m), "rest")
            for i, p in enumerate(m.procs):
                ok(len(p.left) <= 32 and all(k + 1 <= s.depth for k, s in enumerate(reversed(p.left))), "what remains is within its depth")
                fs = [f[0] for f in proc_fronts(m, i)]
                if p.left:
                    ok(fs == sorted(set(fs)) and all(n < most(p.left[0]) <= 8 for n in fs), "front numbers")
                    ws = waits_of(p.left[0], p.vars)
                    ok((fs == []) == all(x.name == "GUARD" for x in ws), "no front exactly at closed guards")
                ok([v[0] for v in p.vars] == [v[0] for v in p.cls.vars], "kinds of variables")
            if not ss:
                rests += 1; break
            s = rng.choice(ss)
            vs = []
            if s[0] == 3:
                for k in front(m, s[1], s[2])[1][4]: vs.append(row_of((k, rng.choice([None, 0, 1]))))
                if vs: ok(e.take(s, vs[:-1], j) == 11, "11")
            elif rng.random() < 0.2: ok(e.take(s, [(1, 0, 0)], j) == 11, "11")
            old = m.state()
            ok(e.take(s, vs, j) == "ok", "take")
            new = m.state()
            ok(all(a == b for i, (a, b) in enumerate(zip(old, new)) if i not in members(s)), "only processes in the step change")
            if s[0]: ok(keeps(m, j.items[-1]), "declared exchange")
            taken += 1
    return loaded, rests, taken, faults

def random_choosers(seed=2, turns=4000):
    rng = random.Random(seed)
    def question():
        q = []
        ps = [p for p in range(8) if rng.random() < 0.6] or [rng.randrange(8)]
        for p in ps:
            if rng.random() < 0.5: q.append((0, p, rng.randint(0, 1), 255, 255, 255, 255))
        if len(ps) > 1:
            for _ in range(rng.randint(0, 4)):
                a, b = rng.sample(ps, 2)
                q.append((1, a, 2, b, 3, 0, 0))
        return sorted(set(q)) or [(0, ps[0], 0, 255, 255, 255, 255)]
    for make in (Rotation, Seniority, lambda: Hold(0, Rotation()), lambda: Hold(3, Seniority()), lambda: Hold(5, Rotation()), lambda: Hold(2, Hold(1, Seniority()))):
        c = make()
        run = [0] * 8
        for _ in range(turns):
            q = question()
            w = c.waits()
            n = c.choose(q)
            x = c.waits()
            ok(0 <= n < len(q) and all(0 <= v <= c.bound for v in w + x), "waits in bounds")
            some = {p for s in q for p in members(s)}
            for p in range(8):
                passed = p in some and p not in members(q[n])
                if passed: ok(x[p] <= w[p] - 1, "wait falls")
                run[p] = run[p] + 1 if passed else 0
                ok(run[p] <= c.bound, "served within the bound")
    s = Script([1, 0, 5, 0])
    q2, q6 = [(0, i, 0, 255, 255, 255, 255) for i in range(2)], [(0, i, 0, 255, 255, 255, 255) for i in range(6)]
    ok([s.choose(q2), s.choose(q2), s.choose(q2), s.choose(q2), s.choose(q6), s.choose(q2), s.choose(q6)] == [1, 0, None, None, 5, 0, None], "Script stays where it is")

def check_words():
    for n in ("VALUES", "MODEL-FILE", "BEHAVIOUR", "CALLS", "CHOOSERS", "PROMISES", "SAMPLES"):
        t = page(n + ".md")
        ok(t.split("\n")[2].startswith("**Status.**"), "status of " + n)
        ok(len(re.findall(r"^## Worked example", t, re.M)) == (0 if n == "SAMPLES" else 1), "one worked example in " + n)
        for l in re.findall(r"\]\(([A-Z-]+\.md)\)", t): ok(os.path.exists(os.path.join(DOCS, l)), "link " + l)
        for l in t.split("\n\n"):
            rs = [r for r in l.split("\n") if r.startswith("|")]
            ok(len({len(cells(r)) for r in rs}) <= 1, "table width in %s: %s" % (n, rs[:1]))

if __name__ == "__main__":
    for f in (check_values, check_model_file, check_behaviour, check_calls, check_choosers, check_promises, check_samples, check_words):
        k = len(DONE); f(); print("%-18s %d checks" % (f.__name__, len(DONE) - k))
    k = len(DONE); res = random_laws()
    print("random models      %d checks; %d files admitted, %d came to rest, %d steps taken" % (len(DONE) - k, res[0], res[1], res[2]))
    print("faults met (number, layer): " + ", ".join("%d/%d x%d" % (a, b, n) for (a, b), n in sorted(res[3].items())))
    k = len(DONE); random_choosers(); print("random choosers    %d checks" % (len(DONE) - k))
