#!/usr/bin/env python3
"""The rules of docs/ once more, in Python, independent of the engine.

Values, the check of a model file, fronts, waiting, arrivals, steps, take, run,
choosers, the shell with its session on one engine, and trials. The stored answers
of both programs come from here:

    python3 tools/oracle.py < INPUT           what the shell must answer to INPUT
    python3 tools/oracle.py trials < INPUT    what the program `trials` must print
"""
import re, sys
import rota_oracle

LO, HI = -2147483648, 2147483647
I, B = 1, 2

# ---------------------------------------------------------------- values
# a value is (kind, number or None); a Boolean's number is 0 or 1

def val_int(n): return (I, n)
def val_bool(b): return (B, 1 if b else 0)
IU, BU = (I, None), (B, None)

def fit(n): return (I, n) if LO <= n <= HI else IU

def op(name, *a):
    x = a[0][1]
    y = a[1][1] if len(a) == 2 else None
    if name in ("ADD", "SUB", "MUL", "DIV"):
        if x is None or y is None: return IU
        if name == "ADD": return fit(x + y)
        if name == "SUB": return fit(x - y)
        if name == "MUL": return fit(x * y)
        if y == 0: return IU
        q = abs(x) // abs(y)
        return fit(q if (x < 0) == (y < 0) else -q)
    if name in ("LESS", "SAME"):
        if x is None or y is None: return BU
        return val_bool(x < y if name == "LESS" else x == y)
    if name == "NOT":
        return BU if x is None else val_bool(x == 0)
    if name == "AND":
        if x == 0 or y == 0: return val_bool(False)
    else:
        assert name == "OR"
        if x == 1 or y == 1: return val_bool(True)
    if x is None or y is None: return BU
    return val_bool(name == "AND")     # both true, or both false

def show(v):
    k, n = v
    if k == I: return "?i" if n is None else str(n)
    return "?b" if n is None else ("true" if n else "false")

def row_of(v):
    k, n = v
    return (k, 0, 0) if n is None else (k, 1, n)

def value_of_row(r):
    k, known, n = r
    if k == 1:
        return (I, n) if known == 1 else IU
    if k == 2:
        return (B, n) if known == 1 and n in (0, 1) else BU
    return IU

def row_good(r):
    k, known, n = r
    if k not in (1, 2) or known not in (0, 1): return False
    if known == 0: return n == 0
    return k == 1 or n in (0, 1)

# ---------------------------------------------------------------- eval of the shell

OPS = {"ADD": ((I, I), I), "SUB": ((I, I), I), "MUL": ((I, I), I), "DIV": ((I, I), I),
       "LESS": ((I, I), B), "SAME": ((0, -1), B), "AND": ((B, B), B), "OR": ((B, B), B),
       "NOT": ((B,), B)}
WANT = {0: "a value", I: "an Integer", B: "a Boolean"}

class Wrong(Exception): pass

def words_of(line):
    """the words of a line, parted by ASCII white space"""
    return re.findall(r"[^ \t\n\f\r]+", line)

def value_of_word(w):
    """the value that a word writes; None where it writes none"""
    if re.fullmatch(r"[+-]?[0-9]+", w):
        return val_int(int(w)) if LO <= int(w) <= HI else None
    return {"?i": IU, "?b": BU, "true": val_bool(True), "false": val_bool(False)}.get(w)

def shell_eval(line):
    words = words_of(line)
    trace = []
    pos = [0]
    def fail(expected, at):
        found = "'%s'" % words[at] if at < len(words) else "the end of the line"
        raise Wrong("wrong: word %d: expected %s, found %s" % (at + 1, expected, found))
    def part(want, depth):
        at = pos[0]
        if at == len(words): fail(WANT[want], at)
        w = words[at]
        num = re.fullmatch(r"[+-]?[0-9]+", w)
        if w in OPS: kind = OPS[w][1]
        elif w in ("?i",) or num: kind = I
        elif w in ("?b", "true", "false"): kind = B
        else: fail("an operation or a value", at)
        if num and not LO <= int(w) <= HI:
            fail("a number from -2147483648 to 2147483647", at)
        if depth > 32: fail("at most 32 levels", at)
        if want and kind != want: fail(WANT[want], at)
        pos[0] += 1
        if w in OPS:
            args = []
            for k in OPS[w][0]:
                args.append(part(args[0][0] if k == -1 else k, depth + 1))
            v = op(w, *args)
            trace.append("%s = %s" % (" ".join([w] + [show(a) for a in args]), show(v)))
            return v
        return value_of_word(w)
    try:
        v = part(0, 1)
        if pos[0] < len(words): fail("the end of the line", pos[0])
    except Wrong as e:
        return [str(e)]
    return trace + ["value " + show(v)]

# ---------------------------------------------------------------- the check of a file

class Fault(Exception):
    def __init__(self, number, place, layer):
        self.t = (number, place, layer)
        Exception.__init__(self, "fault %d place %d layer %d" % self.t)

EXPR = {1: ("INT", 4), 2: ("BOOL", 1), 3: ("IUNK", 0), 4: ("VAR", 1), 5: ("ADD", 2), 6: ("SUB", 2),
        7: ("MUL", 2), 8: ("DIV", 2), 9: ("LESS", 2), 10: ("SAME", 2), 11: ("AND", 2),
        12: ("OR", 2), 13: ("NOT", 0)}
STMT = {0x20: ("SKIP", 0), 0x21: ("SET", 1), 0x22: ("SEND", 3), 0x23: ("RECV", 7), 0x24: ("SEQ", 2),
        0x25: ("SEL", 2), 0x26: ("GUARD", 2), 0x27: ("IF", 4), 0x28: ("DO", 2)}
BEHA = {0x40: ("PROC", 1), 0x41: ("PAR", 2), 0x42: ("HIDE", 4), 0x43: ("RENAME", 2)}
SORT = {"e": (EXPR, 4), "s": (STMT, 3), "b": (BEHA, 5)}

class Node:
    def __init__(self, name, place, depth):
        self.name, self.place, self.depth = name, place, depth
        self.parts = []
        self.ops = b""
        self.kind = None
    def __repr__(self):
        return "%s@%d" % (self.name, self.place)

class Class: pass
class File: pass

def most(s):
    n = s.name
    if n in ("SKIP", "SET", "SEND", "RECV"): return 1
    if n == "SEQ": return most(s.parts[0])
    if n == "SEL": return most(s.parts[0]) + most(s.parts[1])
    if n == "GUARD": return most(s.parts[1])
    return 2

def w2(b): return int.from_bytes(b, "little")
def w4s(b): return int.from_bytes(b, "little", signed=True)

def check(data):
    """the tree of an admitted file; raises Fault otherwise"""
    data = bytes(data)
    f = File()
    f.data = data
    if not 4 <= len(data) <= 4096: raise Fault(1, 0, 1)
    for i, want in enumerate((0x50, 0x53, 0x01)):
        if data[i] != want: raise Fault(2, i, 1)
    if not 1 <= data[3] <= 8: raise Fault(2, 3, 1)
    f.classes = []
    p = 4
    for _ in range(data[3]):
        c, p = check_class(data, p)
        f.classes.append(c)
    f.behaviour_place = p
    f.procs = []
    f.behaviour, end = command(data, "b", p, len(data), 1, None, f, data[3])
    if end < len(data): raise Fault(4, end, 5)
    return f

def check_class(data, p):
    c = Class()
    if p + 2 > len(data): raise Fault(3, p, 2)
    n = w2(data[p:p + 2])
    c.place, c.start, c.end = p, p + 2, p + 2 + n
    if c.end > len(data): raise Fault(3, p, 2)
    q = [c.start]
    def field(size, good):
        at = q[0]
        if at + size > c.end: raise Fault(3, at, 2)
        b = data[at:at + size]
        v = b[0] if size == 1 else w4s(b)
        if not good(v): raise Fault(3, at, 2)
        q[0] += size
        return v
    c.vars, c.decls = [], []
    for _ in range(field(1, lambda v: v <= 8)):
        k = field(1, lambda v: v in (1, 2))
        known = field(1, lambda v: v in (0, 1))
        n = field(4, lambda v: v == 0 if not known else (k == 1 or v in (0, 1)))
        c.vars.append((k, n if known else None))
    for _ in range(field(1, lambda v: v <= 16)):
        d = field(1, lambda v: v <= 1)
        ch = field(1, lambda v: v <= 31)
        m = field(1, lambda v: v <= 254)
        cnt = field(1, lambda v: v <= 4)
        ks = [field(1, lambda v: v in (1, 2) if i < cnt else v == 0) for i in range(4)]
        c.decls.append((d, ch, m, tuple(ks[:cnt])))
    c.statement_place = q[0]
    c.statement, end = command(data, "s", q[0], c.end, 1, c, None, 0)
    if end < c.end: raise Fault(4, end, 3)
    return c, c.end

def command(data, sort, at, limit, depth, cls, f, nclasses):
    table, layer = SORT[sort]
    # 4
    if at >= limit or data[at] not in table: raise Fault(4, at, layer)
    name, n = table[data[at]]
    if at + 1 + n > limit: raise Fault(4, at, layer)
    # 5
    if depth > 32: raise Fault(5, at, layer)
    ops = data[at + 1:at + 1 + n]
    node = Node(name, at, depth)
    node.ops = ops
    def bad(cond):
        if cond: raise Fault(6, at, layer)
    # 6
    if name == "BOOL": bad(ops[0] > 2)
    if name in ("VAR", "SET"): bad(ops[0] >= len(cls.vars))
    if name in ("SEND", "RECV"): bad(ops[0] > 31 or ops[1] > 254 or ops[2] > 4)
    if name == "RECV":
        used, rest = ops[3:3 + ops[2]], ops[3 + ops[2]:]
        bad(any(v >= len(cls.vars) for v in used) or len(set(used)) < len(used) or any(v != 255 for v in rest))
    if name == "PROC": bad(ops[0] >= nclasses)
    if name == "RENAME": bad(ops[0] > 31 or ops[1] > 31)
    # 10
    if name == "PROC":
        if len(f.procs) == 8: raise Fault(10, at, layer)
        node.number = len(f.procs)
        f.procs.append(node)
    # parts: (sort, wanted kind)
    places = []
    if name in ("ADD", "SUB", "MUL", "DIV", "LESS"): parts, places = [("e", I), ("e", I)], [w2(ops)]
    elif name == "SAME": parts, places = [("e", 0), ("e", -1)], [w2(ops)]
    elif name in ("AND", "OR"): parts, places = [("e", B), ("e", B)], [w2(ops)]
    elif name == "NOT": parts = [("e", B)]
    elif name == "SET": parts = [("e", cls.vars[ops[0]][0])]
    elif name == "SEND": parts = [("e", 0)] * ops[2]
    elif name in ("SEQ", "SEL"): parts, places = [("s", 0), ("s", 0)], [w2(ops)]
    elif name in ("GUARD", "DO"): parts, places = [("e", B), ("s", 0)], [w2(ops)]
    elif name == "IF": parts, places = [("e", B), ("s", 0), ("s", 0)], [w2(ops[:2]), w2(ops[2:])]
    elif name == "PAR": parts, places = [("b", 0), ("b", 0)], [w2(ops)]
    elif name in ("HIDE", "RENAME"): parts = [("b", 0)]
    else: parts = []
    end = at + 1 + n
    for i, (so, kind) in enumerate(parts):
        start = end
        part, end = command(data, so, start, limit, depth + 1, cls, f, nclasses)
        node.parts.append(part)
        if so == "e" and kind:
            want = node.parts[0].kind if kind == -1 else kind
            if part.kind != want: raise Fault(7, start, 4)
        if i < len(places) and places[i] != end: raise Fault(4, at, layer)
    if name in ("SEND", "RECV"):
        kinds = tuple(x.kind for x in node.parts) if name == "SEND" else tuple(cls.vars[v][0] for v in ops[3:3 + ops[2]])
        if ((0 if name == "SEND" else 1), ops[0], ops[1], kinds) not in cls.decls: raise Fault(8, at, layer)
        node.kinds = kinds
    if sort == "s" and most(node) > 8: raise Fault(9, at, layer)
    if sort == "e":
        node.kind = {"INT": I, "IUNK": I, "ADD": I, "SUB": I, "MUL": I, "DIV": I}.get(name, B)
        if name == "VAR": node.kind = cls.vars[ops[0]][0]
    node.end = end
    return node, end

def fault_of(data):
    try:
        check(data)
    except Fault as e:
        return e.t
    return None

# ---------------------------------------------------------------- encoding (to build examples)
# a tree is a tuple (name, operands..., parts...)

CODE = {v[0]: k for t in (EXPR, STMT, BEHA) for k, v in t.items()}
NPARTS = {"ADD": 2, "SUB": 2, "MUL": 2, "DIV": 2, "LESS": 2, "SAME": 2, "AND": 2, "OR": 2, "NOT": 1,
          "SEQ": 2, "SEL": 2, "GUARD": 2, "DO": 2, "IF": 3, "PAR": 2}

def enc(t, at):
    name, rest = t[0], list(t[1:])
    head = [CODE[name]]
    if name == "INT": return bytes(head) + (rest[0] & 0xFFFFFFFF).to_bytes(4, "little")
    if name in ("BOOL", "VAR", "PROC"): return bytes(head + rest)
    if name in ("IUNK", "SKIP"): return bytes(head)
    if name == "RECV":
        c, m, vs = rest
        return bytes(head + [c, m, len(vs)] + list(vs) + [255] * (4 - len(vs)))
    if name == "SEND":
        c, m, es = rest
        fixed, parts, nplaces = [c, m, len(es)], list(es), 0
    elif name == "SET": fixed, parts, nplaces = [rest[0]], [rest[1]], 0
    elif name == "HIDE":
        fixed, parts, nplaces = list(sum(1 << c for c in rest[0]).to_bytes(4, "little")), [rest[1]], 0
    elif name == "RENAME": fixed, parts, nplaces = rest[:2], [rest[2]], 0
    else: fixed, parts, nplaces = [], rest, len(rest) - 1
    q = at + 1 + len(fixed) + 2 * nplaces
    out, places = b"", []
    for i, p in enumerate(parts):
        if i and nplaces: places.append(q + len(out))
        out += enc(p, q + len(out))
    return bytes(head + fixed) + b"".join(p.to_bytes(2, "little") for p in places) + out

def enc_file(classes, behaviour):
    out = bytes([0x50, 0x53, 1, len(classes)])
    for vs, ds, s in classes:
        h = bytes([len(vs)])
        for k, n in vs:
            h += bytes([k, 0 if n is None else 1]) + ((n or 0) & 0xFFFFFFFF).to_bytes(4, "little")
        h += bytes([len(ds)])
        for d, ch, m, ks in ds:
            h += bytes([d, ch, m, len(ks)] + list(ks) + [0] * (4 - len(ks)))
        body = enc(s, len(out) + 2 + len(h))
        out += (len(h) + len(body)).to_bytes(2, "little") + h + body
    return out + enc(behaviour, len(out))

def hexs(b): return " ".join("%02X" % x for x in b)
def unhex(s): return bytes.fromhex("".join(s.split()))

# ---------------------------------------------------------------- processes

def evaluate(e, vs):
    n = e.name
    if n == "INT": return (I, w4s(e.ops))
    if n == "BOOL": return (B, (0, 1, None)[e.ops[0]])
    if n == "IUNK": return IU
    if n == "VAR": return vs[e.ops[0]]
    return op(n, *[evaluate(p, vs) for p in e.parts])

TRUE, FALSE = (B, 1), (B, 0)

def fronts_of(s, base, rest, vs):
    """list of (number, action, leaves)"""
    n = s.name
    if n == "SKIP": return [(base, ("internal",), rest)]
    if n == "SET": return [(base, ("set", s.ops[0], evaluate(s.parts[0], vs)), rest)]
    if n == "SEND": return [(base, ("send", s.ops[0], s.ops[1], tuple(evaluate(e, vs) for e in s.parts), s.kinds), rest)]
    if n == "RECV": return [(base, ("receive", s.ops[0], s.ops[1], tuple(s.ops[3:3 + s.ops[2]]), s.kinds), rest)]
    if n == "SEQ": return fronts_of(s.parts[0], base, (s.parts[1],) + rest, vs)
    if n == "SEL": return fronts_of(s.parts[0], base, rest, vs) + fronts_of(s.parts[1], base + most(s.parts[0]), rest, vs)
    if n == "GUARD": return fronts_of(s.parts[1], base, rest, vs) if evaluate(s.parts[0], vs) == TRUE else []
    c = evaluate(s.parts[0], vs)
    if n == "IF":
        a, b = (s.parts[1],) + rest, (s.parts[2],) + rest
    else:
        a, b = (s.parts[1], s) + rest, rest
    return ([(base, ("internal",), a)] if c != FALSE else []) + ([(base + 1, ("internal",), b)] if c != TRUE else [])

def waits_of(s, vs):
    """the commands at which a statement waits; written from the rules on waiting"""
    if s.name == "SEQ": return waits_of(s.parts[0], vs)
    if s.name == "SEL": return waits_of(s.parts[0], vs) + waits_of(s.parts[1], vs)
    if s.name == "GUARD":
        return [s] if evaluate(s.parts[0], vs) != TRUE else waits_of(s.parts[1], vs)
    return [s]

# ---------------------------------------------------------------- models

class Process:
    def __init__(self, cls, left, vs):
        self.cls, self.left, self.vars = cls, left, vs

class Model:
    def __init__(self, f=None):
        self.file = f
        self.behaviour = f.behaviour if f else None
        self.procs = []
        for node in (f.procs if f else []):
            c = f.classes[node.ops[0]]
            self.procs.append(Process(c, (c.statement,), list(c.vars)))
    def state(self):
        return tuple((p.left, tuple(p.vars)) for p in self.procs)

def has(b, p):
    if b.name == "PROC": return b.number == p
    return any(has(x, p) for x in b.parts)

def climb(b, p, c):
    """the channel c of process p on the far side of b, or None"""
    if b.name == "PROC": return c
    if b.name == "PAR":
        return climb(b.parts[0] if has(b.parts[0], p) else b.parts[1], p, c)
    d = climb(b.parts[0], p, c)
    if d is None: return None
    if b.name == "HIDE": return None if w2(b.ops) >> d & 1 else d
    return b.ops[1] if d == b.ops[0] else d

def lowest_par(b, p, q):
    while True:
        for x in b.parts:
            if has(x, p) and has(x, q): b = x; break
        else: return b

def at_par(b, p, q, c):
    """channel c of process p as it arrives at the lowest PAR above p and q"""
    par = lowest_par(b, p, q)
    side = par.parts[0] if has(par.parts[0], p) else par.parts[1]
    return climb(side, p, c)

def proc_fronts(m, i):
    p = m.procs[i]
    return fronts_of(p.left[0], 0, p.left[1:], p.vars) if p.left else []

def steps(m):
    fr = [proc_fronts(m, i) for i in range(len(m.procs))]
    out = []
    for i, fs in enumerate(fr):
        for n, a, _ in fs:
            if a[0] in ("internal", "set"): out.append((0, i, n, 255, 255, 255, 255))
    for i, fs in enumerate(fr):
        for n, a, _ in fs:
            if a[0] != "send": continue
            for j, gs in enumerate(fr):
                if i == j: continue
                for k, b, _ in gs:
                    if b[0] != "receive": continue
                    x, y = at_par(m.behaviour, i, j, a[1]), at_par(m.behaviour, j, i, b[1])
                    if x is not None and x == y and a[2] == b[2] and a[4] == b[4]:
                        out.append((1, i, n, j, k, x, a[2]))
    for kind, word in ((2, "send"), (3, "receive")):
        for i, fs in enumerate(fr):
            for n, a, _ in fs:
                if a[0] == word:
                    x = climb(m.behaviour, i, a[1])
                    if x is not None: out.append((kind, i, n, 255, 255, x, a[2]))
    return out

def front(m, i, n):
    return next(f for f in proc_fronts(m, i) if f[0] == n)

def apply_step(m, st, values):
    """change the model; the four values and count of the record"""
    kind, i, n, j, k, ch, msg = st
    _, a, left = front(m, i, n)
    given = ()
    if kind == 0:
        if a[0] == "set": m.procs[i].vars[a[1]] = a[2]
    elif kind == 1:
        given = a[3]
        _, b, left2 = front(m, j, k)
        for v, x in zip(b[3], given): m.procs[j].vars[v] = x
        m.procs[j].left = left2
    elif kind == 2: given = a[3]
    else:
        given = tuple(values)
        for v, x in zip(a[3], given): m.procs[i].vars[v] = x
    m.procs[i].left = left
    return (st, len(given), tuple(given) + (IU,) * (4 - len(given)))

class Engine:
    def __init__(self): self.model = Model()
    def load(self, data):
        t = fault_of(data)
        if t: return t
        self.model = Model(check(data))
        return "ok"
    def list(self, table):
        if table.room < 1088: return 12
        table.items = steps(self.model)
        assert len(table.items) <= 1088
        return "ok"
    def take(self, st, rows, journal):
        if tuple(st) not in steps(self.model): return 21
        vs = [value_of_row(r) for r in rows]
        want = ()
        if st[0] == 3: want = front(self.model, st[1], st[2])[1][4]
        if tuple(v[0] for v in vs) != want: return 11
        if len(journal.items) >= journal.room: return 22
        journal.items.append(apply_step(self.model, st, vs))
        return "ok"
    def run(self, budget, chooser, table, journal):
        if table.room < 1088: return 12
        count = 0
        while True:
            if count == budget: return (count, 0)
            closed = [s for s in steps(self.model) if s[0] < 2]
            if not closed: return (count, 1)
            if len(journal.items) >= journal.room: return (count, 3)
            pick = chooser.choose(closed)
            if pick is None: return (count, 2)
            journal.items.append(apply_step(self.model, closed[pick], ()))
            count += 1

class Lst:
    def __init__(self, room): self.room, self.items = room, []

# ---------------------------------------------------------------- choosers

def members(s): return (s[1], s[3]) if s[0] == 1 else (s[1],)

class Script:
    def __init__(self, numbers): self.numbers, self.at = list(numbers), 0
    def choose(self, q):
        if self.at == len(self.numbers) or self.numbers[self.at] >= len(q): return None
        self.at += 1
        return self.numbers[self.at - 1]

class Rotation:
    bound = 7
    def __init__(self): self.cursor = 0
    def waits(self): return [(p - self.cursor) % 8 for p in range(8)]
    def choose(self, q):
        for d in range(8):
            p = (self.cursor + d) % 8
            for n, s in enumerate(q):
                if p in members(s):
                    self.cursor = (p + 1) % 8
                    return n

class Seniority:
    bound = 7
    def __init__(self): self.order = list(range(8))
    def waits(self): return [self.order.index(p) for p in range(8)]
    def choose(self, q):
        for p in self.order:
            for n, s in enumerate(q):
                if p in members(s):
                    for x in members(s):
                        self.order.remove(x)
                        self.order.append(x)
                    return n

class Hold:
    def __init__(self, k, below):
        self.k, self.below, self.left, self.kept = k, below, 0, None
        self.bound = (k + 1) * below.bound + k
    def waits(self): return [(self.k + 1) * w + self.left for w in self.below.waits()]
    def choose(self, q):
        if self.left > 0:
            for n, s in enumerate(q):
                if s[0] == 0 and s[1] == self.kept:
                    self.left -= 1
                    return n
        n = self.below.choose(q)
        self.kept, self.left = q[n][1], self.k
        return n

# ---------------------------------------------------------------- the shell

# What `help` prints: word for word the lines of HELP in the program. Replace them here when they change there.
HELP = [
    "help              lists the commands",
    "eval EXPRESSION   works out an expression in prefix form, as eval ADD 1 MUL 2 3",
    "                  operations: ADD SUB MUL DIV LESS SAME AND OR NOT",
    "                  values: numbers, true, false, ?i and ?b for unknown ones",
    "check HEX         says whether a model file is admitted, or its first fault",
    "show HEX          prints an admitted file as indented text, each command with its place",
    "fronts HEX        says what a fresh process of each class of an admitted file can do first",
    "steps HEX         lists the steps that an admitted file permits at its start, seven numbers each",
    "rota CHOOSER      draws up who is served at each turn; lines of closed steps follow,",
    "                  seven numbers each, a blank line ends a turn, and end the rota",
    "                  choosers: script N.., rotation, seniority, hold K rotation, hold K seniority",
    "load HEX          puts the model of an admitted file into the session's engine, or says why not",
    "list [ROOM]       lists the steps that are permitted now, seven numbers each;",
    "                  ROOM is that of the step table, 1088 where it is not given",
    "take STEP VALUE.. takes one of these steps; an outside receive brings the values of its variables",
    "run BUDGET [ROOM] takes closed steps that the chooser picks, and says how many, and why it stopped:",
    "                  0 the budget is spent, 1 no step is closed, 2 the chooser declines,",
    "                  3 the journal is full",
    "chooser CHOOSER   has runs ask this chooser from then on; at first hold 3 seniority",
    "journal [ROOM]    prints the steps that were taken, seven numbers each, with a count of values",
    "                  and the values; or begins a new journal with ROOM for so many, at first 1000",
    "state             says of each process the places of the statements that remain, and its variables",
    "a STEP is seven numbers:",
    "  kind            0 internal, 1 meeting, 2 outside send, 3 outside receive",
    "  process         from 0, in file order; in a meeting the one that sends",
    "  front           the number of the process's front",
    "  partner         in a meeting the process that receives, and",
    "  partner's front the number of its front",
    "  channel         the one on which the exchange arrives, and",
    "  message         its message; 255 stands in each field that does not apply",
]
# (end of HELP)

def hex_words(words):
    for i, w in enumerate(words):
        if not re.fullmatch("[0-9a-fA-F]*", w):
            raise Wrong("wrong: word %d: expected hexadecimal digits, found '%s'" % (i + 1, w))
    digits = "".join(words)
    if len(digits) % 2: raise Wrong("wrong: expected two digits for each byte, found an odd number of digits")
    return bytes.fromhex(digits)

def shell_check(words):
    try:
        f = check(hex_words(words))
    except Wrong as e:
        return str(e)
    except Fault as e:
        return "refused %d place %d layer %d" % e.t
    return "admitted classes %d processes %d" % (len(f.classes), len(f.procs))

def shell_show(words):
    try:
        f = check(hex_words(words))
    except Wrong as e:
        return [str(e)]
    except Fault as e:
        return ["refused %d place %d layer %d" % e.t]
    out = []
    names = {I: "Integer", B: "Boolean"}
    def line(at, level, text): out.append("%5d %s%s" % (at, "  " * level, text))
    def walk(n, level):
        o = n.ops
        text = n.name
        if n.name == "INT": text += " %d" % w4s(o)
        if n.name == "BOOL": text += (" false", " true", " ?b")[o[0]]
        if n.name in ("VAR", "SET"): text += " %d" % o[0]
        if n.name in ("SEND", "RECV"): text += " channel %d message %d" % (o[0], o[1])
        if n.name == "RECV": text += " into" + "".join(" %d" % v for v in o[3:3 + o[2]])
        if n.name == "PROC": text += " class %d" % o[0]
        if n.name == "HIDE": text += "".join(" %d" % c for c in range(32) if int.from_bytes(o, "little") >> c & 1)
        if n.name == "RENAME": text += " %d to %d" % (o[0], o[1])
        line(n.place, level, text)
        for p in n.parts: walk(p, level + 1)
    for i, c in enumerate(f.classes):
        line(c.place, 0, "class %d" % i)
        at = c.start + 1
        for k, v in enumerate(c.vars):
            line(at, 1, "variable %d %s %s" % (k, names[v[0]], show(v)))
            at += 6
        at += 1
        for d, ch, m, ks in c.decls:
            line(at, 1, "%s channel %d message %d%s" % ("receives" if d else "sends", ch, m, "".join(" " + names[k] for k in ks)))
            at += 8
        walk(c.statement, 1)
    line(f.behaviour_place, 0, "behaviour")
    walk(f.behaviour, 1)
    return out

def front_line(front):
    number, action, left = front
    words = ["internal"] if action[0] == "internal" else list(action[:3])
    if action[0] == "set": words[2] = show(action[2])
    if action[0] == "send": words += [show(v) for v in action[3]]
    if action[0] == "receive": words += list(action[3])
    return " ".join(str(w) for w in [number] + words + ["leaves"] + [s.place for s in left])

def shell_fronts(words):
    try:
        f = check(hex_words(words))
    except Wrong as e:
        return [str(e)]
    except Fault as e:
        return ["refused %d place %d layer %d" % e.t]
    out = []
    for i, c in enumerate(f.classes):
        fs = fronts_of(c.statement, 0, (), list(c.vars))
        out.append("class %d fronts %d" % (i, len(fs)))
        out += [front_line(x) for x in fs]
    return out

def shell_steps(words):
    try:
        found = steps(Model(check(hex_words(words))))
    except Wrong as e:
        return [str(e)]
    except Fault as e:
        return ["refused %d place %d layer %d" % e.t]
    return ["listed %d" % len(found)] + [" ".join(str(n) for n in s) for s in found]

# ---------------------------------------------------------------- the session of the shell

def number(w, top):
    """the number that a word writes, at most top; None where it writes none"""
    return int(w) if re.fullmatch("[0-9]+", w) and int(w) <= top else None

def numbers(words, *tops):
    """the numbers that the words write, no more than there are bounds; raises Wrong otherwise"""
    found = [number(w, top) for w, top in zip(words, tops)]
    if len(words) > len(tops) or None in found: raise Wrong
    return found

def chooser_of(words):
    """the chooser that the words name; ValueError with the fault text of `rota` otherwise"""
    rota_oracle.chooser(words)
    if words[0] == "script": return Script(int(w) for w in words[1:])
    if words[0] == "hold": return Hold(int(words[1]), chooser_of(words[2:]))
    return Rotation() if words[0] == "rotation" else Seniority()

def texts(*items):
    return " ".join(str(x) for x in items)

def refusal_text(t):
    return "refused %d place %d layer %d" % t

def record_line(r):
    st, count, vs = r
    return texts(*st, count, *[show(v) for v in vs[:count]])

def journal_lines(journal):
    return ["journal %d" % len(journal.items)] + [record_line(r) for r in journal.items]

def state_lines(m):
    out = ["processes %d" % len(m.procs)]
    for i, p in enumerate(m.procs):
        line = "process %d: %s;" % (i, texts(*[s.place for s in p.left]) if p.left else "ended")
        out.append(texts(line, *[show(v) for v in p.vars]))
    return out

def stop_text(t):
    return "ran %d stop %d" % t

class Session:
    """the engine behind the shell's session commands, with its journal and the chooser that runs ask"""
    def __init__(self):
        self.engine, self.journal, self.chooser = Engine(), Lst(1000), Hold(3, Seniority())

    def load(self, words):
        try: data = hex_words(words)
        except Wrong as e: return [str(e)]
        answer = self.engine.load(data)
        return ["loaded" if answer == "ok" else refusal_text(answer)]

    def list(self, words):
        room = numbers(words, 65535)
        table = Lst(room[0] if room else 1088)
        if self.engine.list(table) != "ok": return ["refused 12"]
        return ["listed %d" % len(table.items)] + [texts(*s) for s in table.items]

    def take(self, words):
        step, values = numbers(words[:7], *[255] * 7), [value_of_word(w) for w in words[7:]]
        if len(step) < 7 or None in values: raise Wrong
        answer = self.engine.take(step, [row_of(v) for v in values], self.journal)
        return ["took " + record_line(self.journal.items[-1]) if answer == "ok" else "refused %d" % answer]

    def run(self, words):
        given = numbers(words, 4294967295, 65535)
        if not given: raise Wrong
        answer = self.engine.run(given[0], self.chooser, Lst((given + [1088])[1]), self.journal)
        return ["refused 12" if answer == 12 else stop_text(answer)]

    def choose(self, words):
        try: self.chooser = chooser_of(words)
        except ValueError as e: return ["wrong: %s" % e]
        return [texts("chooser", *(str(int(w)) if w.isdigit() else w for w in words))]

    def journals(self, words):
        room = numbers(words, 65535)
        if not room: return journal_lines(self.journal)
        self.journal = Lst(room[0])
        return ["journal of room %d" % room[0]]

    def state(self, words):
        numbers(words)
        return state_lines(self.engine.model)

SESSION = {
    "load": (Session.load, ""),
    "list": (Session.list, "list [ROOM], a room from 0 to 65535"),
    "take": (Session.take, "take and seven numbers from 0 to 255, then values"),
    "run": (Session.run, "run BUDGET [ROOM], a budget from 0 to 4294967295 and a room from 0 to 65535"),
    "chooser": (Session.choose, ""),
    "journal": (Session.journals, "journal [ROOM], a room from 0 to 65535"),
    "state": (Session.state, "state and nothing else"),
}

def shell_session(session, words):
    call, form = SESSION[words[0]]
    try: return call(session, words[1:])
    except Wrong: return ["wrong: expected " + form]

# ---------------------------------------------------------------- the shell's lines

def shell(lines):
    lines, session = iter(lines), Session()
    for line in lines:
        words = words_of(line)
        if not words or words[0].startswith("#"): continue
        if words[0] == "help":
            print("\n".join(HELP) if len(words) == 1 else "wrong: word 1: expected the end of the line, found '%s'" % words[1])
        elif words[0] == "eval": print("\n".join(shell_eval(" ".join(words[1:]))))
        elif words[0] == "check": print(shell_check(words[1:]))
        elif words[0] == "show": print("\n".join(shell_show(words[1:])))
        elif words[0] == "fronts": print("\n".join(shell_fronts(words[1:])))
        elif words[0] == "steps": print("\n".join(shell_steps(words[1:])))
        elif words[0] == "rota": rota_oracle.follow(words[1:], lines)
        elif words[0] in SESSION: print("\n".join(shell_session(session, words)))
        else: print("wrong: unknown command '%s'; help lists the commands" % words[0])

# ---------------------------------------------------------------- trials

class Trial:
    """the calls of one trial session, in order, on a newly made engine; the lists they share; their answers"""
    def __init__(self, chooser, table, journal, answers):
        self.engine, self.chooser = Engine(), chooser_of(chooser)
        self.table, self.journal, self.answers = Lst(table), Lst(journal), Lst(answers)
        self.open = False                                 # whether the table's contents are open, after a run

    def call(self, words):
        name, rest = words[0], words[1:]
        if name == "load":
            answer = self.engine.load(unhex("".join(rest)))
            text = "loaded" if answer == "ok" else refusal_text(answer)
        elif name == "list":
            answer = self.engine.list(self.table)
            if answer == "ok": self.open = False
            text = "listed" if answer == "ok" else "refused %d" % answer
        elif name == "take":
            rows = [row_of(value_of_word(w)) for w in rest[7:]]
            answer = self.engine.take(tuple(int(w) for w in rest[:7]), rows, self.journal)
            text = "took" if answer == "ok" else "refused %d" % answer
        else:
            chooser = self.chooser if name == "run" else chooser_of(["script"] + rest[1:])
            answer = self.engine.run(int(rest[0]), chooser, self.table, self.journal)
            if answer != 12: self.open = True
            text = "refused 12" if answer == 12 else stop_text(answer)
        if len(self.answers.items) < self.answers.room: self.answers.items.append(text)
        return text

    def outcome(self):
        """what the program prints at the session's end"""
        table = ["table open"] if self.open else ["table %d" % len(self.table.items)] + [texts(*s) for s in self.table.items]
        return self.answers.items + table + journal_lines(self.journal) + state_lines(self.engine.model)

def trials(lines):
    for line in lines:
        words = line.split()
        if words[0] == "session": chooser = words[1:]
        elif words[0] == "rooms": trial = Trial(chooser, *[int(w) for w in words[1:]])
        elif words == ["table", "open"]: assert trial.open
        elif words == ["end"]: print("\n".join(trial.outcome()))
        else: trial.call(words)

if __name__ == "__main__":
    sys.stdin.reconfigure(newline="\n")
    (trials if sys.argv[1:] == ["trials"] else shell)(sys.stdin)
