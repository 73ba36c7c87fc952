#!/usr/bin/env python3
"""Sessions for the program `trials`, with the answers it must print.

A session is a list of calls on a newly made engine, which share one step table, one journal and one list of answers:

    session CHOOSER..             the chooser that its runs follow: rotation, seniority, hold K rotation, hold K seniority
    rooms TABLE JOURNAL ANSWERS
    load HEX.. | list | take K P F Q G C M [VALUE..] | run BUDGET
    script BUDGET N..             a run under a new script of these numbers
    table open                    where the table's contents are not fixed at the end: a run was accepted after the last list
    end

The answer to each call that still has room in the list of answers, then what table, journal and processes hold at the
end. What the written sessions answer stands beside their calls; every call of every session is held to the rules once
more, stated in another way below.

    python3 tools/trial_table.py input | answers      what stands in crates/trials/stdin and stdout
    python3 tools/trial_table.py names                what each session tries
    python3 tools/trial_table.py report               what all of them met
    python3 tools/trial_table.py write FOLDER         the files stdin and stdout there
"""
import copy, os, random, sys
sys.dont_write_bytecode = True
import rota_oracle
from oracle import *
from check_docs import SITE, LOOPS, LAYERS, A, nots, sel, full_house, guard_unknown, at_rest, keeps, rnd_file
from file_table import put, left, right, even, over, one, towers, BUILD_SITE, SKIP, IUNK
from step_table import model, own, meet, out, into, SEND, RECV, GUARD, SEL, PAR, HIDE, RENAME, P, INT, VAR, YES, NO, UNK
from step_table import random_models
import file_table, front_table, step_table

SESSIONS = []
MOST_STEPS = 300                                      # of a session, so that each is played at once
MOST_BUDGET = 4294967295
FULL = (1088, 100, 100)                               # rooms of table, journal, answers

# ---------------------------------------------------------------- the rules on steps taken, by number

def go(s, n, vs):
    """front n of a statement: its action, and the statements that it puts before the rest; None where it is not offered"""
    if s.name == "SEQ":
        found = go(s.parts[0], n, vs)
        return found and (found[0], found[1] + [s.parts[1]])
    if s.name == "SEL":
        a, b = s.parts
        return go(a, n, vs) if n < most(a) else go(b, n - most(a), vs)
    if s.name == "GUARD":
        return go(s.parts[1], n, vs) if evaluate(s.parts[0], vs)[1] == 1 else None
    if s.name in ("IF", "DO"):
        c = evaluate(s.parts[0], vs)[1]
        if n > 1 or c == (0, 1)[n]: return None
        ways = [[s.parts[1]], [s.parts[2]]] if s.name == "IF" else [[s.parts[1], s], []]
        return s, ways[n]
    return (s, []) if n == 0 else None

def replay(m, step, given):
    """changes the model by a step; the values of its record"""
    kind, p, f, q, g = step[:5]
    one = m.procs[p]
    s, before = go(one.left[0], f, one.vars)
    values = [evaluate(e, one.vars) for e in s.parts] if kind in (1, 2) else list(given)
    if s.name == "SET": one.vars[s.ops[0]] = evaluate(s.parts[0], one.vars)
    one.left = tuple(before) + one.left[1:]
    if kind == 3:
        for v, x in zip(s.ops[3:], values): one.vars[v] = x
    if kind == 1:
        other = m.procs[q]
        t, before = go(other.left[0], g, other.vars)
        for v, x in zip(t.ops[3:], values): other.vars[v] = x
        other.left = tuple(before) + other.left[1:]
    return values

# ---------------------------------------------------------------- sessions

class Played(Trial):
    """a session that is being written: its lines, and each call held to the rules as it is added"""
    def __init__(self, name, chooser="hold 3 seniority", rooms=FULL):
        Trial.__init__(self, chooser.split(), *rooms)
        self.name, self.words = name, chooser.split()
        self.lines = ["session " + chooser, "rooms %d %d %d" % rooms]
        self.said = []                                    # all answers, also those that no longer fit the list
        self.second = rota_oracle.chooser(self.words)     # the chooser followed, stated another way
        self.passed = [0] * 8                             # picks since each process was last in one, while in closed steps

    def fail(self, what):
        sys.exit("%s, call %d: %s" % (self.name, len(self.said), what))

    def hold(self, good, what):
        if not good: self.fail(what)

    def add(self, line, want):
        words = line.split()
        m = copy.copy(self.engine.model)
        m.procs = [Process(p.cls, p.left, list(p.vars)) for p in m.procs]
        before = (m.state(), list(self.journal.items), list(self.table.items))
        listed = steps(m)
        text = self.call(words)
        after = (self.engine.model.state(), self.journal.items, self.table.items)
        self.lines.append(line)
        self.said.append(text)
        if want is not None: self.hold(text == want, "written %s, found %s" % (want, text))
        if text.startswith("refused"): self.hold(after == before, "a refusal leaves all")
        new = self.journal.items[len(before[1]):]
        self.hold(self.journal.items[:len(before[1])] == before[1], "the journal only grows")
        self.hold(len(self.journal.items) <= self.journal.room and len(self.table.items) <= self.table.room, "rooms")
        if words[0] in ("load", "list"): self.hold(not new, "no records")
        if words[0] == "load" and text == "loaded":
            f = self.engine.model.file
            self.hold(after[0] == tuple(((c.statement,), tuple(c.vars)) for c in (f.classes[x.ops[0]] for x in f.procs)), "at its start")
        elif words[0] == "load": self.hold(m.file is self.engine.model.file, "the model stays")
        elif words[0] == "list": self.after_list(m, text)
        elif words[0] == "take": self.after_take(m, listed, words[1:], text, new)
        else: self.after_run(m, words, text, new)
        for p in self.engine.model.procs:
            self.hold([v[0] for v in p.vars] == [v[0] for v in p.cls.vars] and len(p.left) <= 32, "kinds of variables, places")
        self.hold(len(self.journal.items) <= MOST_STEPS, "too many steps")
        return text

    def after_list(self, m, text):
        self.hold((text == "listed") == (self.table.room >= 1088), "room of the table")
        if text != "listed": return
        t = self.table.items
        kinds = [s[0] for s in t]
        self.hold(t == sorted(t) and len(set(t)) == len(t) and kinds == sorted(kinds), "in order, each once, closed steps first")
        self.hold((t == []) == at_rest(m), "empty exactly at rest")
        self.hold(all(q < len(m.procs) for s in t for q in members(s)), "processes of the model")

    def after_take(self, m, listed, words, text, new):
        step, values = tuple(int(w) for w in words[:7]), [value_of_word(w) for w in words[7:]]
        kinds = ()
        if step in listed and step[0] == 3:
            s, _ = go(m.procs[step[1]].left[0], step[2], m.procs[step[1]].vars)
            kinds = s.kinds
        wrong = [n for n, bad in ((21, step not in listed), (11, tuple(v[0] for v in values) != kinds),
                                  (22, len(self.journal.items) - len(new) == self.journal.room)) if bad]
        self.hold(text == ("refused %d" % wrong[0] if wrong else "took"), "21, 11, 22: %s and %s" % (wrong, text))
        if wrong: return
        self.hold(len(new) == 1, "one record")
        self.taken(m, new[0], values)
        self.hold(m.state() == self.engine.model.state(), "the model after the step")

    def taken(self, m, record, given):
        step, count, values = record
        if step[0]: self.hold(keeps(m, record), "a declared exchange")
        there = replay(m, step, given)
        self.hold(list(values) == there + [IU] * (4 - count) and count == len(there), "values of the record")

    def after_run(self, m, words, text, new):
        if self.table.room < 1088: return self.hold(text == "refused 12", "room of the table")
        budget = int(words[1])
        count, why = int(text.split()[1]), int(text.split()[3])
        self.hold(count == len(new) <= budget, "the count is the growth of the journal")
        script = rota_oracle.chooser(["script"] + words[2:]) if words[0] == "script" else None
        chooser = script or self.second
        for record in new:
            closed = [s for s in steps(m) if s[0] < 2]
            pick = chooser.choose(closed)
            self.hold(pick is not None and closed[pick] == record[0], "the picked step")
            self.taken(m, record, ())
            if not script: self.serve(closed, record[0])
        self.hold(m.state() == self.engine.model.state(), "the model after the run")
        closed = [s for s in steps(m) if s[0] < 2]
        if count == budget: word = 0
        elif not closed: word = 1
        elif len(self.journal.items) == self.journal.room: word = 3
        else: word = 2 if chooser.choose(closed) is None else None
        self.hold(word == why, "the stop word")

    def serve(self, closed, picked):
        """a process in some closed step at each of bound + 1 successive picks is in one of the steps picked"""
        some = {p for s in closed for p in members(s)}
        for p in range(8):
            self.passed[p] = self.passed[p] + 1 if p in some and p not in members(picked) else 0
            self.hold(self.passed[p] <= self.chooser.bound, "served within the bound")

    # the calls
    def load(self, data, want="loaded"):
        digits = bytes(data).hex().upper()
        ways = [digits], [digits.lower()], re.findall("..", digits), re.findall(".{1,7}", digits), re.findall(".{1,80}", digits)
        return self.add(texts("load", *ways[(len(SESSIONS) + len(self.said)) % 5 if len(data) < 100 else 0]).strip(), want)
    def no(self, data, n, place, layer): return self.load(data, "refused %d place %d layer %d" % (n, place, layer))
    def list(self, want="listed"): return self.add("list", want)
    def take(self, step, *values, want="took"): return self.add(texts("take", *step, *values), want)
    def not_listed(self, step, *values): return self.take(step, *values, want="refused 21")
    def unfit(self, step, *values): return self.take(step, *values, want="refused 11")
    def full(self, step, *values): return self.take(step, *values, want="refused 22")
    def run(self, budget, want=None): return self.add("run %d" % budget, want and "ran %d stop %d" % want)
    def script(self, budget, numbers, want=None): return self.add(texts("script", budget, *numbers), want and "ran %d stop %d" % want)

    def end(self, table=None, journal=None, state=None):
        """the session is written; what it prints at the end may be said beside it"""
        if self.open: self.lines.append("table open")
        self.lines.append("end")
        self.hold(self.answers.items == self.said[:self.answers.room], "the first answers")
        for what, want, found in (("table", table, None if self.open else [texts(*s) for s in self.table.items]),
                                  ("journal", journal, journal_lines(self.journal)[1:]),
                                  ("state", state, state_lines(self.engine.model)[1:])):
            if want is None: continue
            want = [x if type(x) is str else texts(*x) for x in want]
            self.hold(want == found, "%s at the end: written %s, found %s" % (what, want, found))
        SESSIONS.append(self)

def T(name, chooser="hold 3 seniority", rooms=FULL): return Played(name, chooser, rooms)

def room(table=1088, journal=100, answers=100): return (table, journal, answers)

CHOOSERS = ["rotation", "seniority", "hold 3 seniority", "hold 0 rotation", "hold 1 seniority", "hold 2 rotation",
            "hold 255 seniority", "hold 0 seniority", "hold 5 rotation", "hold 255 rotation"]

# ---------------------------------------------------------------- builders

def SET(v, e): return ("SET", v, e)
def SEQ(*ss): return right("SEQ", list(ss))
def DO(e, *ss): return ("DO", e, SEQ(*ss))
def IF(e, a, b): return ("IF", e, a, b)
def LESS(a, b): return ("LESS", a, b)
def SAME(a, b): return ("SAME", a, b)
def ADD(a, b): return ("ADD", a, b)
def SUB(a, b): return ("SUB", a, b)
def MUL(a, b): return ("MUL", a, b)

def bad_steps(step):
    """the step with each field one off, and each made 255, without itself"""
    found = []
    for i in range(7):
        for x in (step[i] + 1, step[i] - 1, 255):
            t = step[:i] + (x,) + step[i + 1:]
            if 0 <= x <= 255 and t != step and t not in found: found.append(t)
    return found

# ---------------------------------------------------------------- a new engine

s = T("no call at all")
s.end([], [], [])

s = T("a new engine: nothing listed, nothing to run, nothing to take", "rotation")
s.list()
s.run(5, (0, 1))
s.run(0, (0, 0))
s.script(5, [0], (0, 1))
s.not_listed(own(0, 0))
s.not_listed((255,) * 7)
s.not_listed((0,) * 7)
s.list()
s.end([], [], [])

s = T("a new engine, and a table without room", "rotation", room(table=0))
s.list("refused 12")
s.add("run 5", "refused 12")
s.add("run 0", "refused 12")
s.add("script 5 0", "refused 12")
s.not_listed(own(0, 0))
s.end([], [], [])

s = T("a new engine, and a journal without room: no closed step comes first", "seniority", room(journal=0))
s.run(5, (0, 1))
s.run(0, (0, 0))
s.not_listed(meet(0, 0, 1, 0, 1, 2))
s.end(None, [], [])

s = T("a run accepted and no list: the table is open", "rotation")
s.run(0, (0, 0))
s.end()

s = T("a refused load on a new engine", "rotation")
s.no(A[:-1], 4, 64, 5)
s.list()
s.no(b"", 1, 0, 1)
s.end([], [], [])

# ---------------------------------------------------------------- samples

AM = meet(0, 0, 1, 0, 1, 2)                           # sample A's one step
A_START = ["process 0: 22; 7", "process 1: 46; 0"]
A_END = ["process 0: ended; 7", "process 1: ended; 7"]
B_FILE = put(A, 55, 0)

s = T("sample A: load, list, take, list")
s.load(A)
s.list()
s.take(AM)
s.list()
s.end([], ["1 0 0 1 0 1 2 1 7"], A_END)

s = T("sample A: its list")
s.load(A)
s.list()
s.end([AM], [], A_START)

s = T("sample A by a run")
s.load(A)
s.run(10, (1, 1))
s.run(10, (0, 1))
s.end(None, ["1 0 0 1 0 1 2 1 7"], A_END)

s = T("sample A: the table keeps what was listed before the take")
s.load(A)
s.list()
s.take(AM)
s.end([AM], ["1 0 0 1 0 1 2 1 7"], A_END)

s = T("sample A: a list is no right to a step")
s.load(A)
s.take(AM)
s.not_listed(AM)
s.load(A)
s.take(AM)
s.end([], ["1 0 0 1 0 1 2 1 7"] * 2, A_END)

s = T("sample A: each field one off, and each made 255")
s.load(A)
for x in bad_steps(AM): s.not_listed(x)
s.list()
s.end([AM], [], A_START)

s = T("sample A: records that look like its step")
s.load(A)
for x in ((0,) * 7, (255,) * 7, own(0, 0), own(1, 0), meet(1, 0, 0, 0, 1, 2), out(0, 0, 1, 2), into(1, 0, 1, 2),
          (2, 0, 0, 1, 0, 1, 2), (3, 1, 0, 0, 0, 1, 2), (1, 0, 0, 255, 255, 1, 2), (4, 0, 0, 1, 0, 1, 2)): s.not_listed(x)
s.take(AM)
s.end([], ["1 0 0 1 0 1 2 1 7"], A_END)

s = T("sample B: three steps, the meeting taken", "rotation")
s.load(B_FILE)
s.list()
s.take(AM)
s.not_listed(out(0, 0, 1, 2))
s.not_listed(into(1, 0, 1, 2), 7)
s.end([AM, out(0, 0, 1, 2), into(1, 0, 1, 2)], ["1 0 0 1 0 1 2 1 7"], A_END)

s = T("sample B: the send and then the receive taken, each with the outside", "seniority")
s.load(B_FILE)
s.take(out(0, 0, 1, 2))
s.not_listed(AM)
s.list()
s.take(into(1, 0, 1, 2), -3)
s.end([into(1, 0, 1, 2)], ["2 0 0 255 255 1 2 1 7", "3 1 0 255 255 1 2 1 -3"], ["process 0: ended; 7", "process 1: ended; -3"])

s = T("sample B: an unknown value from the outside", "seniority")
s.load(B_FILE)
s.unfit(into(1, 0, 1, 2), "?b")
s.take(into(1, 0, 1, 2), "?i")
s.list()
s.end([out(0, 0, 1, 2)], ["3 1 0 255 255 1 2 1 ?i"], ["process 0: 22; 7", "process 1: ended; ?i"])

s = T("sample B: wrong values for each of its steps", "seniority")
s.load(B_FILE)
for v in ((), ("7", "7"), ("true",), ("?b",), ("7", "?b"), ("true", "7")): s.unfit(into(1, 0, 1, 2), *v)
for x in (AM, out(0, 0, 1, 2)):
    for v in (("7",), ("?i",), ("true",), ("?b",), ("1", "2", "3", "4"), ("1", "2", "3", "4", "5")): s.unfit(x, *v)
for x in bad_steps(into(1, 0, 1, 2)): s.not_listed(x, 7)
s.list()
s.end([AM, out(0, 0, 1, 2), into(1, 0, 1, 2)], [], A_START)

s = T("samples C, D and E: each refused over sample A in the middle", "hold 3 seniority")
s.load(B_FILE)
s.take(out(0, 0, 1, 2))
s.no(A[:-1], 4, 64, 5)
s.no(put(A, 27, 1), 6, 26, 4)
s.no(put(A, 24, 3), 8, 22, 3)
s.list()
s.end([into(1, 0, 1, 2)], ["2 0 0 255 255 1 2 1 7"], ["process 0: ended; 7", "process 1: 46; 0"])

F_FILE = one(SEQ(SET(0, ADD(INT(2147483647), INT(1))), SET(1, ("DIV", INT(-7), INT(2))), SET(2, ("DIV", INT(-2147483648), INT(-1)))),
             [(I, 0), (I, 0), (I, 0)])
s = T("sample F: three values worked out", "rotation")
s.load(F_FILE)
s.run(10, (3, 1))
s.end(None, ["0 0 0 255 255 255 255 0"] * 3, ["process 0: ended; ?i -3 ?i"])

s = T("sample G: unknown AND false is false, and GUARD unknown offers nothing", "rotation")
s.load(guard_unknown())
s.run(5, (0, 1))
s.not_listed(own(0, 0))
s.load(model(P[0], IF(("AND", UNK, NO), SKIP, SET(0, INT(1)))))
s.not_listed(own(0, 0))
s.take(own(0, 1))
s.run(5, (1, 1))
s.load(guard_unknown())
s.list()
s.end([], ["0 0 1 255 255 255 255 0", "0 0 0 255 255 255 255 0"], ["process 0: 8;"])

s = T("sample H: 30 NOTs load, 31 do not", "rotation")
s.load(nots(30))
s.no(nots(31), 5, 47, 4)
s.list()
s.run(3, (1, 1))
s.list()
s.end([], ["0 0 0 255 255 255 255 0"], ["process 0: ended; true"])

s = T("sample I: eight SKIPs load, nine do not", "rotation")
s.load(sel(8))
s.no(sel(9), 9, 8, 3)
s.list()
s.end([own(0, f) for f in range(8)], [], ["process 0: 8;"])

for f in range(8):
    s = T("sample I: front %d of eight" % f, CHOOSERS[f])
    s.load(sel(8))
    s.script(1, [8], (0, 2))
    s.script(1, [f], (1, 0))
    s.script(1, [0], (0, 1))
    s.not_listed(own(0, f))
    s.end(None, ["0 0 %d 255 255 255 255 0" % f], ["process 0: ended;"])

# ---------------------------------------------------------------- rooms

def counter(n): return one(DO(LESS(INT(0), VAR(0)), SET(0, SUB(VAR(0), INT(1)))), [(I, n)])     # rests after 2 n + 1 steps
EIGHT_LOOPS = one(("DO", YES, SKIP), beh=even("PAR", [P[0]] * 8))     # each process has always one internal step, front 0
ALL_EIGHT = [own(p, 0) for p in range(8)]

for n in (0, 1, 1087):
    s = T("a table of room %d: lists and runs are refused, takes are not" % n, "rotation", room(table=n))
    s.load(A)
    s.list("refused 12")
    s.add("run 10", "refused 12")
    s.add("script 10 0", "refused 12")
    s.add("run %d" % MOST_BUDGET, "refused 12")
    s.take(AM)
    s.list("refused 12")
    s.end([], ["1 0 0 1 0 1 2 1 7"], A_END)

s = T("a table of room 1,087 and a journal without room: the table first", "rotation", room(table=1087, journal=0))
s.load(A)
s.add("run 10", "refused 12")
s.add("run 0", "refused 12")
s.full(AM)
s.end([], [], A_START)

for n in (1088, 1089, 65535):
    s = T("a table of room %d, 1,088 steps" % n, "rotation", room(table=n))
    s.load(full_house())
    s.list()
    s.end(step_table.steps(Model(check(full_house()))))

s = T("lists of room 65,535", "seniority", room(65535, 65535, 65535))
s.load(A)
s.list()
s.run(MOST_BUDGET, (1, 1))
s.list()
s.end([], ["1 0 0 1 0 1 2 1 7"], A_END)

s = T("a list after a longer one: the table is emptied first", "rotation")
s.load(full_house())
s.list()
s.load(A)
s.list()
s.end([AM])

s = T("a list after 64 steps, of nothing", "rotation")
s.load(one(SEL(*[SKIP] * 8), beh=even("PAR", [P[0]] * 8)))
s.list()
s.load(guard_unknown())
s.list()
s.end([], [])

# ---------------------------------------------------------------- journals at their limits

s = T("a journal without room: takes and runs", "rotation", room(journal=0))
s.load(B_FILE)
s.full(AM)
s.full(out(0, 0, 1, 2))
s.full(into(1, 0, 1, 2), 7)
s.unfit(into(1, 0, 1, 2))
s.unfit(AM, 7)
s.not_listed(own(0, 0))
s.run(0, (0, 0))
s.run(1, (0, 3))
s.run(MOST_BUDGET, (0, 3))
s.script(1, [0], (0, 3))
s.script(1, [], (0, 3))
s.script(1, [9], (0, 3))
s.script(0, [9], (0, 0))
s.list()
s.end([AM, out(0, 0, 1, 2), into(1, 0, 1, 2)], [], A_START)

s = T("a journal of room 1", "rotation", room(journal=1))
s.load(B_FILE)
s.take(out(0, 0, 1, 2))
s.full(into(1, 0, 1, 2), 7)
s.run(4, (0, 1))
s.load(A)
s.full(AM)
s.run(4, (0, 3))
s.list()
s.end([AM], ["2 0 0 255 255 1 2 1 7"], A_START)

for n in range(4):
    s = T("journals around the 9 steps of counters: room %d" % (7 + n), "rotation", room(journal=7 + n))
    s.load(counter(4))                                # 9 steps to rest
    s.run(100, ((7, 3), (8, 3), (9, 1), (9, 1))[n])
    s.run(0, (0, 0))
    s.run(3, ((0, 3), (0, 3), (0, 1), (0, 1))[n])
    s.load(counter(0))
    s.run(2, ((0, 3), (0, 3), (0, 3), (1, 1))[n])
    s.end()

s = T("budget and room spent at once: the budget first", "rotation", room(journal=5))
s.load(EIGHT_LOOPS)
s.run(5, (5, 0))
s.run(1, (0, 3))
s.end(None, ["0 %d 0 255 255 255 255 0" % p for p in range(5)])

s = T("room spent and the script used up at once: the room first", "rotation", room(journal=3))
s.load(EIGHT_LOOPS)
s.script(5, [7, 7, 7], (3, 3))
s.end(None, ["0 7 0 255 255 255 255 0"] * 3)

s = T("no closed step and no room at once: no closed step first", "rotation", room(journal=1))
s.load(A)
s.run(5, (1, 1))
s.end()

s = T("no closed step and the script used up at once: no closed step first", "rotation")
s.load(A)
s.script(5, [0], (1, 1))
s.script(5, [], (0, 1))
s.end()

s = T("budget spent with no closed step left: the budget first", "rotation")
s.load(A)
s.run(1, (1, 0))
s.run(1, (0, 1))
s.end()

s = T("21, 11 and 22 wrong at once, in all ways", "rotation", room(journal=1))
s.load(B_FILE)
s.take(out(0, 0, 1, 2))
R1 = into(1, 0, 1, 2)
s.full(R1, 7)                                         # 22 alone
s.unfit(R1)                                           # 11 and 22
s.unfit(R1, "true")
s.not_listed(out(0, 0, 1, 2))                         # 21 and 22
s.not_listed(out(0, 0, 1, 2), 7)                      # 21, 11 and 22
s.not_listed(into(0, 0, 1, 2))
s.end([], ["2 0 0 255 255 1 2 1 7"], ["process 0: ended; 7", "process 1: 46; 0"])

s = T("21 and 11 wrong at once, with room", "rotation")
s.load(B_FILE)
s.not_listed(own(0, 0), 7)
s.not_listed(into(0, 0, 1, 2))
s.not_listed(into(1, 1, 1, 2), "true")
s.unfit(R1, "true")
s.take(R1, 8)
s.not_listed(R1, "true")
s.end([], ["3 1 0 255 255 1 2 1 8"])

# ---------------------------------------------------------------- answers at their limits

for n in range(6):
    s = T("room for %d answers of five" % n, "rotation", room(answers=n))
    s.load(A)
    s.list()
    s.take(AM)
    s.take(AM, want="refused 21")
    s.no(b"", 1, 0, 1)
    s.end([AM], ["1 0 0 1 0 1 2 1 7"], A_END)

s = T("no room for answers, none for records, none in the table", "rotation", (0, 0, 0))
s.load(A)
s.list("refused 12")
s.add("run 3", "refused 12")
s.full(AM)
s.end([], [], A_START)

# ---------------------------------------------------------------- budgets

s = T("budgets 0, 1, exact, above and the greatest, on counters", "rotation")
s.load(counter(3))                                    # 7 steps to rest
s.run(0, (0, 0))
s.run(1, (1, 0))
s.run(6, (6, 0))
s.run(6, (0, 1))
s.load(counter(3))
s.run(7, (7, 0))
s.load(counter(3))
s.run(8, (7, 1))
s.load(counter(3))
s.run(MOST_BUDGET, (7, 1))
s.run(MOST_BUDGET, (0, 1))
s.end(None, (["0 0 0 255 255 255 255 0"] * 6 + ["0 0 1 255 255 255 255 0"]) * 4, ["process 0: ended; 0"])

s = T("the greatest budget, and a journal that ends an endless run", "rotation", room(journal=17))
s.load(EIGHT_LOOPS)
s.run(MOST_BUDGET, (17, 3))
s.end(None, ["0 %d 0 255 255 255 255 0" % (n % 8) for n in range(17)])

s = T("the greatest budget, and a script that ends an endless run", "rotation")
s.load(EIGHT_LOOPS)
s.script(MOST_BUDGET, [3, 1, 4, 1, 5, 7, 2, 6], (8, 2))
s.end(None, ["0 %d 0 255 255 255 255 0" % n for n in (3, 1, 4, 1, 5, 7, 2, 6)])

# ---------------------------------------------------------------- choosers

def served(processes): return ["0 %d 0 255 255 255 255 0" % p for p in processes]

for chooser, order in (
        ("rotation", list(range(8)) * 4),
        ("seniority", list(range(8)) * 4),
        ("hold 0 rotation", list(range(8)) * 4),
        ("hold 0 seniority", list(range(8)) * 4),
        ("hold 1 rotation", [n // 2 % 8 for n in range(32)]),
        ("hold 3 seniority", [n // 4 for n in range(32)]),
        ("hold 7 rotation", [n // 8 for n in range(32)]),
        ("hold 255 seniority", [0] * 32)):
    s = T("eight endless processes under " + chooser, chooser)
    s.load(EIGHT_LOOPS)
    for n in (1, 2, 3, 5, 8, 13): s.run(n, (n, 0))
    s.list()
    s.end(ALL_EIGHT, served(order))

s = T("hold 255 rotation goes to the next process after 256 steps", "hold 255 rotation", room(journal=300))
s.load(EIGHT_LOOPS)
s.run(256, (256, 0))
s.run(3, (3, 0))
s.end(None, served([0] * 256 + [1] * 3))

s = T("what rotation keeps lasts across runs, lists, takes and loads", "rotation")
s.load(EIGHT_LOOPS)
s.run(3, (3, 0))                                      # 0 1 2
s.list()
s.take(own(0, 0))
s.run(2, (2, 0))                                      # 3 4
s.no(b"", 1, 0, 1)
s.script(2, [0, 7], (2, 0))                           # 0 7, not asked of rotation
s.load(EIGHT_LOOPS)
s.run(4, (4, 0))                                      # 5 6 7 0
s.load(LOOPS)                                         # two processes
s.run(3, (3, 0))                                      # 1, then round to 0, then 1
s.end(None, served([0, 1, 2, 0, 3, 4, 0, 7, 5, 6, 7, 0, 1, 0, 1]))

s = T("what seniority keeps lasts across runs and loads", "seniority")
s.load(LOOPS)
s.run(3, (3, 0))                                      # 0 1 0: the order is 2 to 7, 1, 0
s.load(EIGHT_LOOPS)
s.run(8, (8, 0))                                      # 2 to 7, 1, 0
s.end(None, served([0, 1, 0, 2, 3, 4, 5, 6, 7, 1, 0]))

s = T("what hold keeps lasts across runs and loads", "hold 3 seniority")
s.load(EIGHT_LOOPS)
s.run(2, (2, 0))                                      # 0 0: two more are left
s.script(1, [5], (1, 0))                              # 5, not asked of hold
s.load(LOOPS)
s.run(1, (1, 0))                                      # 0
s.no(A[:-1], 4, 64, 5)
s.take(own(1, 0))
s.run(2, (2, 0))                                      # 0, then 1
s.load(EIGHT_LOOPS)
s.run(5, (5, 0))                                      # 1 1 1, then 2 2
s.end(None, served([0, 0, 5, 0, 1, 0, 1, 1, 1, 1, 2, 2]))

s = T("hold asks below when the kept process has no internal step", "hold 3 rotation")
s.load(enc_file([([(I, 2)], [], ("SEQ", SKIP, SKIP)), ([], [], ("DO", YES, SKIP))], PAR(P[0], P[1])))
s.run(7, (7, 0))                                      # 0 0, then 1 and three more, then 1 again
s.end(None, served([0, 0, 1, 1, 1, 1, 1]), ["process 0: ended; 2", "process 1: 28 23;"])

PAIRS = model(HIDE(1)(PAR(P[0], P[0], P[1], P[1])), DO(YES, SEND(1)), DO(YES, RECV(1)))
s = T("rotation serves both in a meeting, as process or as partner", "rotation")
s.load(PAIRS)
s.run(4, (4, 0))                                      # each enters its loop
s.list()
s.run(4, (4, 0))
s.end(None, served([0, 1, 2, 3]) + ["1 0 0 2 0 1 0 0", "1 1 0 3 0 1 0 0"] + served([2, 3]))

for k, chooser in enumerate(CHOOSERS):
    s = T("two senders and two receivers under " + chooser, chooser)
    s.load(PAIRS)
    s.run(3, (3, 0))
    s.list()
    s.run(20 + k, (20 + k, 0))
    s.script(9, [0, 0, 9], (2, 2))
    s.run(11, (11, 0))
    s.list()
    s.end()

s = T("seniority puts the partner behind the process", "seniority")
s.load(model(HIDE(1)(PAR(P[0], P[1], P[2])), ("SEND", 1, 0, []), ("RECV", 1, 0, []), ("DO", YES, SKIP)))
s.run(1, (1, 0))                                      # 0 meets 1: the order is 2 to 7, 0, 1
s.load(EIGHT_LOOPS)
s.run(8, (8, 0))
s.end(None, ["1 0 0 1 0 1 0 0"] + served([2, 3, 4, 5, 6, 7, 0, 1]))

s = T("seniority where the partner is frontmost", "seniority")
s.load(model(HIDE(1)(PAR(P[1], P[0], P[2])), ("SEND", 1, 0, []), ("RECV", 1, 0, []), ("DO", YES, SKIP)))
s.run(1, (1, 0))                                  # 1 meets 0: the order is 2 to 7, 1, 0
s.load(EIGHT_LOOPS)
s.run(8, (8, 0))
s.end(None, ["1 1 0 0 0 1 0 0"] + served([2, 3, 4, 5, 6, 7, 1, 0]))

s = T("hold keeps the sender of a meeting", "hold 2 rotation")
s.load(model(HIDE(1)(PAR(P[1], P[0])), ("SEQ", SEND(1), DO(YES, SKIP)), ("SEQ", RECV(1), DO(YES, SKIP))))
s.run(6, (6, 0))              # rotation picks for 0; the sender 1 is kept for two; then rotation's cursor stands at 1
s.end(None, ["1 1 0 0 0 1 0 0"] + served([1, 1, 1, 1, 1]))

# ---------------------------------------------------------------- scripts

s = T("a script that is used up", "rotation")
s.load(EIGHT_LOOPS)
s.script(10, [0, 7, 3], (3, 2))
s.script(3, [1, 1, 1], (3, 0))
s.script(3, [], (0, 2))
s.script(0, [], (0, 0))
s.run(2, (2, 0))
s.end(None, served([0, 7, 3, 1, 1, 1, 0, 1]))

s = T("scripts whose next number is too high", "rotation")
s.load(EIGHT_LOOPS)
for n in (8, 9, 255, 256, 65535): s.script(5, [n, 0], (0, 2))
s.script(5, [7, 8, 0], (1, 2))
s.list()
s.end(ALL_EIGHT, served([7]))

s = T("a script among meetings: only closed steps have numbers", "rotation")
s.load(B_FILE)
s.script(5, [1], (0, 2))
s.script(5, [2], (0, 2))
s.script(5, [0], (1, 1))
s.end(None, ["1 0 0 1 0 1 2 1 7"], A_END)

s = T("a script among 1,024 meetings: the last, and one behind it", "rotation")
s.load(full_house())
s.script(1, [1024], (0, 2))
s.script(1, [1023], (1, 0))
s.script(1, [576], (0, 2))
s.script(1, [575, 0], (1, 0))
s.script(2, [0], (1, 2))
s.end(None, ["1 3 7 7 7 0 0 0", "1 2 7 6 7 0 0 0", "1 0 0 4 0 0 0 0"])

s = T("a script of many numbers", "rotation", room(journal=200))
s.load(EIGHT_LOOPS)
s.script(150, [n * n % 8 for n in range(200)], (150, 0))
s.end(None, served([n * n % 8 for n in range(150)]))

s = T("scripts choose the ways of unknown conditions", "rotation")
WAYS = model(P[0], SEQ(IF(UNK, SET(0, INT(1)), SET(0, INT(2))), ("DO", UNK, SET(2, INT(9)))))
s.load(WAYS)
s.script(9, [1, 0, 1], (3, 1))
s.load(WAYS)
s.script(9, [0, 0, 0, 0, 0, 0, 1], (7, 1))
s.load(WAYS)
s.script(9, [2], (0, 2))
s.script(9, [0, 1], (1, 2))
s.end(None, ["0 0 1 255 255 255 255 0", "0 0 0 255 255 255 255 0", "0 0 1 255 255 255 255 0"] + ["0 0 0 255 255 255 255 0"] * 6 +
      ["0 0 1 255 255 255 255 0", "0 0 0 255 255 255 255 0"])

# ---------------------------------------------------------------- the table after runs

s = T("a list after a run: the table is known again", "rotation")
s.load(counter(1))
s.list()
s.run(2, (2, 0))
s.list()
s.end([own(0, 1)])

s = T("a run after a list, though of no step: the table is open", "rotation")
s.load(counter(1))
s.list()
s.run(0, (0, 0))
s.end()

s = T("a script after a list: the table is open", "rotation")
s.load(counter(1))
s.list()
s.script(1, [], (0, 2))
s.end()

s = T("a load and takes after a list: the table stays", "rotation")
s.load(counter(1))
s.list()
s.take(own(0, 0))
s.load(A)
s.take(AM)
s.no(b"", 1, 0, 1)
s.end([own(0, 0)])

# ---------------------------------------------------------------- values

ALL4 = [(B, 0), (I, 0), (I, None), (B, None)]         # the receiver's variables
FOUR = enc_file([([(I, -9)], [(0, 4, 1, (I, B, B, I))], SEND(4, 1, ("MUL", VAR(0), INT(7)), YES, UNK, IUNK)),
                 (ALL4, [(1, 4, 1, (I, B, B, I))], RECV(4, 1, 1, 3, 0, 2))], PAR(P[0], P[1]))
s = T("four values meet four variables", "rotation")
s.load(FOUR)
s.take(meet(0, 0, 1, 0, 4, 1))
s.list()
s.end([], ["1 0 0 1 0 4 1 4 -63 true ?b ?i"], ["process 0: ended; -9", "process 1: ended; ?b -63 ?i true"])

s = T("four values from the outside, and too few, too many and wrong ones first", "rotation")
s.load(FOUR)
R4 = into(1, 0, 4, 1)
for v in ((), (1,), (1, "true"), (1, "true", "false"), (1, "true", "false", 2, 3), (1, "true", "false", "?b"), ("true", "true", "false", 2),
          (1, 1, "false", 2), (1, "true", 0, 2), ("?b", "?b", "?b", "?i"), ("?i", "?i", "?i", "?i"), ("?i", "?b", "?b", "?i", "?i"),
          (1, "true", "false", 2) * 5): s.unfit(R4, *v)
s.list()
s.take(R4, -2147483648, "true", "?b", 2147483647)
s.take(out(0, 0, 4, 1))
s.end([meet(0, 0, 1, 0, 4, 1), out(0, 0, 4, 1), R4],
      ["3 1 0 255 255 4 1 4 -2147483648 true ?b 2147483647", "2 0 0 255 255 4 1 4 -63 true ?b ?i"],
      ["process 0: ended; -9", "process 1: ended; ?b -2147483648 2147483647 true"])

s = T("four unknown values from the outside", "rotation")
s.load(FOUR)
s.take(R4, "?i", "?b", "?b", "?i")
s.end([], ["3 1 0 255 255 4 1 4 ?i ?b ?b ?i"], ["process 0: 22; -9", "process 1: ended; ?b ?i ?i ?b"])

for n in range(5):
    kinds = [(), (I,), (I, B), (I, B, I), (I, B, I, B)][n]
    vs = [(I, 0), (B, 0), (I, 0), (B, 0)]
    f = one(("DO", YES, ("SEQ", ("RECV", 3, 5, list(range(n))), ("SEND", 3, 6, [VAR(v) for v in range(n)]))), vs,
            [(1, 3, 5, kinds), (0, 3, 6, kinds)])
    s = T("receives and sends of %d values with the outside" % n, CHOOSERS[n])
    s.load(f)
    for given in ((7, "true", -1, "false"), ("?i", "?b", "?i", "?b"), (-2147483648, "false", 2147483647, "true")):
        s.take(own(0, 0))
        if n: s.unfit(into(0, 0, 3, 5), *given[:n - 1])
        if n < 4: s.unfit(into(0, 0, 3, 5), *given[:n + 1])
        s.unfit(into(0, 0, 3, 5), *reversed((given + given)[:n + 1]))
        s.take(into(0, 0, 3, 5), *given[:n])
        s.unfit(out(0, 0, 3, 6), *given[:max(n, 1)])
        s.take(out(0, 0, 3, 6))
    s.list()
    s.end([own(0, 0)])

ARITH = [(I, 46341), (I, -2147483648), (I, None), (B, None), (B, 1), (I, 7), (I, 2147483647), (B, 0)]
s = T("every operation, with known and unknown parts and results out of range", "rotation")
s.load(one(SEQ(SET(0, MUL(VAR(0), VAR(0))), SET(1, SUB(VAR(1), INT(1))), SET(2, ADD(VAR(2), INT(1))), SET(3, ("OR", VAR(3), VAR(4))),
               SET(4, ("AND", VAR(7), ("NOT", SAME(IUNK, IUNK)))), SET(5, ("DIV", VAR(5), SUB(VAR(5), VAR(5)))),
               SET(6, SUB(VAR(6), INT(-1))), SET(7, ("NOT", LESS(INT(3), INT(3))))), ARITH))
s.run(100, (8, 1))
s.end(None, None, ["process 0: ended; ?i ?i ?i true false ?i ?i true"])

s = T("what is in range stays known", "rotation")
s.load(one(SEQ(SET(0, MUL(INT(46340), INT(46340))), SET(1, MUL(INT(65536), INT(-32768))), SET(2, ("DIV", INT(-7), INT(-2))),
               SET(3, SAME(UNK, NO)), SET(4, SAME(VAR(4), YES)), SET(5, SUB(INT(-2147483647), INT(1))),
               SET(6, ADD(VAR(6), INT(0))), SET(7, LESS(INT(-2147483648), INT(2147483647)))), ARITH))
s.run(100, (8, 1))
s.end(None, None, ["process 0: ended; 2147395600 -2147483648 3 ?b true -2147483648 2147483647 true"])

s = T("a doubling that leaves the range: then its loop may go on or end", "rotation")
s.load(one(DO(LESS(VAR(0), INT(2000000000)), SET(0, ADD(VAR(0), VAR(0)))), [(I, 536870912)]))
s.run(6, (6, 0))                                      # doubled to 1073741824, then unknown; then the loop may go on
s.list()
s.script(9, [0, 0, 1], (3, 1))
s.list()
s.end([], served([0] * 8) + ["0 0 1 255 255 255 255 0"], ["process 0: ended; ?i"])

s = T("a value goes through a line of eight processes", "rotation")
def relay(k): return ([(I, None)], [(1, k, 0, (I,)), (0, k + 1, 0, (I,))],
                      ("SEQ", RECV(k, 0, 0), SEQ(SET(0, MUL(VAR(0), INT(-3))), SEND(k + 1, 0, VAR(0)))))
s.load(enc_file([relay(k) for k in range(8)], HIDE(*range(1, 8))(even("PAR", P))))
s.list()
s.run(99, (0, 1))
s.take(into(0, 0, 0), 5)
s.run(99, (15, 1))
s.list()
s.take(out(7, 0, 8))
s.end([out(7, 0, 8)], None, ["process %d: ended; %d" % (k, 5 * (-3) ** (k + 1)) for k in range(8)])

# ---------------------------------------------------------------- statements

s = T("IF, known and unknown, and only what is offered can be taken", "rotation")
for e, offered in ((YES, [0]), (NO, [1]), (UNK, [0, 1])):
    for f in (0, 1, 2):
        s.load(model(P[0], IF(e, SET(0, INT(10)), SET(0, INT(20)))))
        if f in offered:
            s.take(own(0, f))
            s.run(5, (1, 1))
        else: s.not_listed(own(0, f))
s.end(None, None, ["process 0: 26; 5 true ?i"])

s = T("DO, known and unknown", "rotation")
for e, offered in ((YES, [0]), (NO, [1]), (UNK, [0, 1])):
    for f in (0, 1, 2):
        s.load(model(P[0], ("DO", e, SET(0, ADD(VAR(0), INT(1))))))
        if f in offered:
            s.take(own(0, f))
            s.run(3, None)
        else: s.not_listed(own(0, f))
s.end()

s = T("GUARD, known and unknown, and front numbers behind shut guards", "rotation")
DOORS = model(P[0], SEL(GUARD(NO, SKIP), GUARD(UNK, SEL(SKIP, SKIP)), GUARD(YES, SET(0, INT(3))), SET(0, INT(4))))
for f in (0, 1, 2, 5, 6, 7, 8):
    s.load(DOORS)
    s.not_listed(own(0, f))
s.list()
s.take(own(0, 3))
s.load(DOORS)
s.take(own(0, 4))
s.end([own(0, 3), own(0, 4)], ["0 0 3 255 255 255 255 0", "0 0 4 255 255 255 255 0"], ["process 0: ended; 4 true ?i"])

s = T("guards that open and shut as variables change", "rotation")
s.load(one(DO(YES, SEL(GUARD(LESS(VAR(0), INT(2)), SET(0, ADD(VAR(0), INT(1)))), GUARD(SAME(VAR(0), INT(2)), SET(0, ADD(VAR(0), INT(5)))),
                       GUARD(LESS(INT(6), VAR(0)), SET(0, IUNK)))), [(I, 0)]))
s.run(99, (9, 1))                                     # 1, 2, 7, unknown: then every guard is shut
s.list()
s.end([], ["0 0 %d 255 255 255 255 0" % f for f in (0, 0, 0, 0, 0, 1, 0, 2, 0)],
      ["process 0: 19 14; ?i"])

s = T("32 statements remain", "rotation")
s.load(one(left("SEQ", [("DO", UNK, SKIP)] + [SKIP] * 30)))
s.list()
s.take(own(0, 0))
s.end([own(0, 0), own(0, 1)], served([0]), ["process 0: 103 98 " + " ".join(str(p) for p in range(104, 134)) + ";"])

s = T("32 statements remain, and go one by one", "rotation")
s.load(one(left("SEQ", [("DO", UNK, SKIP)] + [SKIP] * 30)))
s.script(99, [0, 0] * 3 + [1] + [0] * 30, (37, 1))
s.end(None, None, ["process 0: ended;"])

s = T("eight processes with 32 statements each", "rotation")
s.load(one(left("SEQ", [("DO", UNK, SKIP)] + [SKIP] * 30), beh=left("PAR", [P[0]] * 8)))
s.script(8, [14, 12, 10, 8, 6, 4, 2, 0], (8, 0))
s.list()
s.end([own(p, 0) for p in range(8)], served(range(7, -1, -1)),
      ["process %d: 103 98 " % p + " ".join(str(x) for x in range(104, 134)) + ";" for p in range(8)])

s = T("a thousand SKIPs under the default chooser", "hold 3 seniority")
s.load(one(even("SEQ", [SKIP] * 1000)))
s.run(2, (2, 0))
s.list()
s.end([own(0, 0)], served([0, 0]), None)

s = T("the longest file with GUARDs, 32 deep", "rotation")
s.load(one(towers([26] * 30 + [11, 0]), beh=("RENAME", 0, 1, ("RENAME", 1, 2, ("PROC", 0)))))
s.run(40, (32, 1))
s.list()
s.end([], served([0] * 32), ["process 0: ended;"])

# ---------------------------------------------------------------- loads

s = T("loads over running models", "rotation")
s.load(SITE)
s.take(into(0, 0, 0), 2)
s.run(3, (3, 0))
s.load(SITE)
s.list()
s.end([into(0, 0, 0)], None, ["process 0: 30; ?i", "process 1: 101; ?i", "process 2: 101; ?i"])

s = T("steps of the old model after a load", "rotation")
s.load(SITE)
s.list()
s.load(A)
s.not_listed(into(0, 0, 0), 2)
s.take(AM)
s.load(SITE)
s.not_listed(AM)
s.end([into(0, 0, 0)], ["1 0 0 1 0 1 2 1 7"])

s = T("a fault of each number, over a model in the middle", "hold 3 seniority")
s.load(SITE)
s.take(into(0, 0, 0), 1)
s.run(2, (2, 0))
s.no(A[:3], 1, 0, 1)
s.no(put(A, 1, 0), 2, 1, 1)
s.no(put(A, 4, 255, 5, 255), 3, 4, 2)
s.no(A + b"\0", 4, 66, 5)
s.no(nots(31), 5, 47, 4)
s.no(put(A, 65, 2), 6, 64, 5)
s.no(one(SET(0, YES), [(I, 0)]), 7, 16, 4)
s.no(put(A, 24, 3), 8, 22, 3)
s.no(sel(9), 9, 8, 3)
s.no(one(SKIP, beh=left("PAR", [P[0]] * 9)), 10, 49, 5)
s.no(bytes(4097), 1, 0, 1)
s.list()
s.end()

s = T("eight processes, and then one, and then none listed", "rotation")
s.load(EIGHT_LOOPS)
s.run(9, (9, 0))
s.load(one(SKIP))
s.run(9, (1, 1))
s.not_listed(own(1, 0))
s.list()
s.end([], served(list(range(8)) + [0, 0]), ["process 0: ended;"])

s = T("one file many times", "hold 1 rotation")
for n in range(12):
    s.load(A)
    s.run(n % 3, ((0, 0), (1, 0), (1, 1))[n % 3])
s.end(None, ["1 0 0 1 0 1 2 1 7"] * 8, A_END)

# ---------------------------------------------------------------- channels

BOTH = model(PAR(P[0], P[0]), SEL(SEND(1), RECV(1)))
for k, step in enumerate((meet(0, 0, 1, 1, 1), meet(1, 0, 0, 1, 1), out(0, 0, 1), out(1, 0, 1), into(0, 1, 1), into(1, 1, 1))):
    s = T("two processes of one class meet both ways: step %d" % k, CHOOSERS[k])
    s.load(BOTH)
    s.take(step)
    s.list()
    s.run(5, (0, 1))
    s.list()
    s.end(None if k else [])

s = T("HIDE and RENAME on the way: each front, and its channel in the record", "rotation")
WAY = model(PAR(HIDE(1)(RENAME(1, 4)(HIDE(7)(P[0]))), RENAME(5, 4)(HIDE(6, 7)(RENAME(6, 5)(P[1])))),
            SEL(SEND(1), SEND(4), SEND(7)), SEL(RECV(7), RECV(6), RECV(4)))
for step in (meet(0, 0, 1, 1, 4), meet(0, 1, 1, 2, 4), out(0, 0, 4), into(1, 1, 4)):
    s.load(WAY)
    s.not_listed(step[:5] + (1,) + step[6:])
    s.not_listed(out(0, 2, 7))
    s.not_listed(meet(0, 2, 1, 0, 7))
    s.take(step)
s.list()
s.end([out(0, 0, 4), out(0, 1, 4)])

s = T("a RENAME above a PAR: one send has a channel there and another outside", "rotation")
s.load(model(RENAME(1, 5)(PAR(P[0], P[1])), SEND(1), RECV(1)))
s.list()
s.not_listed(meet(0, 0, 1, 0, 5))
s.not_listed(out(0, 0, 1))
s.take(out(0, 0, 5))
s.take(into(1, 0, 5))
s.end([meet(0, 0, 1, 0, 1), out(0, 0, 5), into(1, 0, 5)], ["2 0 0 255 255 5 0 0", "3 1 0 255 255 5 0 0"])

s = T("channels 0 and 31, messages 0 and 254", "rotation")
s.load(model(PAR(P[0], P[1]), SEL(SEND(31, 254, VAR(0)), SEND(0, 0, VAR(1))), SEL(RECV(0, 0, 1), RECV(31, 254, 2))))
s.list()
s.not_listed(out(0, 0, 31, 255))
s.not_listed(out(0, 0, 255, 254))
s.take(meet(0, 0, 1, 1, 31, 254))
s.end([meet(0, 0, 1, 1, 31, 254), meet(0, 1, 1, 0, 0, 0), out(0, 0, 31, 254), out(0, 1, 0), into(1, 0, 0), into(1, 1, 31, 254)],
      ["1 0 0 1 1 31 254 1 5"], ["process 0: ended; 5 true ?i", "process 1: ended; 5 true 5"])

s = T("31 HIDEs and 31 RENAMEs", "rotation")
s.load(model(over(31, HIDE(0), P[0]), SEL(SEND(0), SEND(1))))
s.list()
s.take(out(0, 1, 1))
b = P[0]
for k in range(31): b = RENAME(k, k + 1)(b)
s.load(model(b, SEL(SEND(0), SEND(5), SEND(31))))
s.list()
s.take(out(0, 1, 31))
s.end([out(0, f, 31) for f in range(3)], ["2 0 1 255 255 1 0 0", "2 0 1 255 255 31 0 0"])

s = T("senders that a hidden receiver cannot answer: at rest", "rotation")
s.load(model(HIDE(1)(PAR(P[0], P[0])), SEND(1)))
s.list()
s.run(7, (0, 1))
s.not_listed(out(0, 0, 1))
s.list()
s.end([], [])

# ---------------------------------------------------------------- many steps

for k, (i, j) in enumerate(((0, 1023), (1024, 1087), (511, 512), (1055, 1056))):
    s = T("1,088 steps: number %d and then number %d" % (i, j), CHOOSERS[k])
    s.load(full_house())
    every = steps(Model(check(full_house())))
    s.list()
    for x in bad_steps(every[i])[:6]: s.add(texts("take", *x), None)
    s.take(every[i]) if every[i] in steps(s.engine.model) else s.not_listed(every[i])
    s.add(texts("take", *every[j]), None)
    s.list()
    s.run(2, None)
    s.run(9, None)
    s.end()

for k, chooser in enumerate(CHOOSERS[:4]):
    s = T("four senders and four receivers of eight fronts under " + chooser, chooser)
    s.load(full_house())
    s.run(9, (4, 1))
    s.list()
    s.end([])

# ---------------------------------------------------------------- build sites

s = T("the small build site: two jobs, as far as the journal has room", "rotation", room(journal=8))
s.list()
s.load(SITE)
s.run(10, (0, 1))
s.list()
JOBS = into(0, 0, 0)
s.unfit(JOBS)
s.take(JOBS, 2)
s.run(3, (3, 0))
s.list()
REPORT = out(1, 1, 9, 1)
s.take(REPORT)
s.not_listed(REPORT)
s.no(SITE[:154], 4, 153, 5)
s.run(10, (3, 3))
s.list()
s.full(own(0, 1))
s.end([own(0, 1), out(2, 1, 9, 1)], ["3 0 0 255 255 0 0 1 2", "0 0 0 255 255 255 255 0", "1 0 0 1 0 1 0 1 2", "0 0 0 255 255 255 255 0",
      "2 1 1 255 255 9 1 1 2", "0 0 0 255 255 255 255 0", "1 0 0 2 0 1 0 1 1", "0 0 0 255 255 255 255 0"])

s = T("the small build site: an unknown number of jobs", "seniority")
s.load(SITE)
s.take(JOBS, "?i")
s.list()
s.script(3, [0, 1, 0], (3, 0))
s.script(3, [1], (1, 1))
s.list()
s.end([out(2, 1, 9, 1)], None, None)

s = T("the small build site: no job at all, and a number below 0", "seniority")
for n in (0, -1, -2147483648):
    s.load(SITE)
    s.take(JOBS, n)
    s.run(5, (1, 1))
    s.list()
s.end([], ["3 0 0 255 255 0 0 1 0", "0 0 1 255 255 255 255 0", "3 0 0 255 255 0 0 1 -1", "0 0 1 255 255 255 255 0",
           "3 0 0 255 255 0 0 1 -2147483648", "0 0 1 255 255 255 255 0"])

def outside(s, seed, calls, scan):
    """runs, sends to the outside, and jobs and scans from there, by turns"""
    r = random.Random(seed)
    for n in range(calls):
        listed = steps(s.engine.model)
        sends, receives = [x for x in listed if x[0] == 2], [x for x in listed if x[0] == 3]
        if receives and (n % 3 == 0 or not sends):
            x = receives[-1] if scan and n % 2 else receives[0]
            s.take(x, r.choice([0, 1, 2, 3, "?i"]) if x[5] == 8 else r.randrange(1, 4))
        elif sends: s.take(r.choice(sends))
        s.run(r.randrange(1, 12), None)
        if n % 4 == 1: s.list()

for k, chooser in enumerate(CHOOSERS):
    s = T("the build site under " + chooser, chooser, room(1088, (60, 100, 250)[k % 3], (100, 7)[k % 2]))
    s.load(BUILD_SITE)
    s.list()
    s.run(9, None)
    outside(s, k, 9, k % 2)
    s.list()
    s.end()

# ---------------------------------------------------------------- all files of the tables

GOOD = [A, SITE, counter(2), LOOPS, FOUR, PAIRS]      # models to refuse others over

def fitting(r, m, step):
    """values that fit the step: those of an outside receive, else none"""
    if step[0] != 3: return []
    kinds = go(m.procs[step[1]].left[0], step[2], m.procs[step[1]].vars)[0].kinds
    return [show(r.choice([(I, 0), (I, 1), (I, -2), IU]) if k == I else (B, r.choice([0, 1, None]))) for k in kinds]

def take_some(s, r, n):
    """takes of listed steps"""
    for _ in range(n):
        m = s.engine.model
        listed = steps(m)
        if not listed: return
        step = r.choice(listed)
        s.take(step, *fitting(r, m, step), want="took" if len(s.journal.items) < s.journal.room else "refused 22")

def chunks(xs, n): return [xs[k:k + n] for k in range(0, len(xs), n)]

for k, files in enumerate(chunks(file_table.TABLE, 4)):
    r = random.Random(k)
    s = T("model files %d to %d" % (4 * k, 4 * k + len(files) - 1), CHOOSERS[k % len(CHOOSERS)], room(journal=(40, 3, 12)[k % 3]))
    s.load(GOOD[k % len(GOOD)])
    if k % 2: take_some(s, r, 2)
    for what, data, want in files:
        if want[0] == "admitted":
            s.load(data)
            s.run(3, None) if k % 3 else take_some(s, r, 2)
        else: s.no(data, *want[1:])
    if k % 5: s.list()
    else: s.run(5, None)
    s.end()

for k, files in enumerate(chunks(front_table.TABLE, 4)):
    r = random.Random(100 + k)
    s = T("fronts %d to %d" % (4 * k, 4 * k + len(files) - 1), CHOOSERS[k % len(CHOOSERS)])
    for what, data, want in files:
        if want[0].startswith("refused"):
            s.load(data, want[0])
            continue
        s.load(data)
        take_some(s, r, 2)
        if k % 2: s.run(3, None)
        else: s.script(3, [r.randrange(3) for _ in range(3)], None)
    s.list()
    s.end()

for k, files in enumerate(chunks([t for t in step_table.TABLE if t[1] != full_house()], 2)):
    r = random.Random(200 + k)
    s = T("steps %d to %d" % (2 * k, 2 * k + len(files) - 1), CHOOSERS[k % len(CHOOSERS)], room(journal=(50, 6)[k % 2]))
    for what, data, want in files:
        s.load(data, want[0] if want[0].startswith("refused") else "loaded")
        s.list()
        take_some(s, r, 1)
        s.run(r.randrange(3), None)
        take_some(s, r, 2)
        for x in r.sample(bad_steps(r.choice(s.table.items)), 2) if s.table.items else (): s.add(texts("take", *x), None)
        s.run(20, None)
    if k % 3: s.list()
    s.end()

# ---------------------------------------------------------------- random sessions

def stops(m, limit=40):
    """whether the model rests after fewer closed steps than the limit, each time the first"""
    m2 = Model()
    m2.behaviour, m2.procs = m.behaviour, [Process(p.cls, p.left, list(p.vars)) for p in m.procs]
    for _ in range(limit):
        closed = [x for x in steps(m2) if x[0] < 2]
        if not closed: return True
        replay(m2, closed[0], ())
    return False

def random_file(r, files):
    """a file with some way to go, or a damaged one"""
    while True:
        data = rnd_file(r) if r.random() < 0.6 else r.choice(files)
        if len(data) > 330 or fault_of(data): continue
        if len(steps(Model(check(data)))) < r.choice([1, 1, 2]): continue
        if r.random() < 0.15:
            data = put(data, r.randrange(len(data)), r.randrange(256))
        return data

def random_take(s, r):
    m = s.engine.model
    listed = steps(m)
    step = r.choice(listed + s.table.items) if listed and r.random() < 0.9 else tuple(r.choice([0, 0, 1, 255]) for _ in range(7))
    if r.random() < 0.25: step = r.choice(bad_steps(step))
    values = fitting(r, m, step) if step in listed else []
    if r.random() < 0.2: values = r.choice([values + [r.choice([3, "true", "?i"])], values[:-1], list(reversed(values)), ["?b"]])
    s.take(step, *values, want=None)

def random_session(n):
    r = random.Random(1000 + n)
    files = random_models(40)
    calls = r.randrange(6, 22)
    table = r.choice([1088] * 8 + [1087, 5000])
    s = T("random session %d" % n, r.choice(CHOOSERS), (table, r.choice([200, 100, 40, 12, 5, 0]), r.choice([100, 100, calls, calls - 1])))
    if r.random() < 0.9: s.load(random_file(r, files), None)
    for _ in range(calls):
        way = r.random()
        if way < 0.15: s.list(None)
        elif way < 0.50: random_take(s, r)
        elif way < 0.75:
            spent = s.table.room < 1088 or s.journal.room < 100 or stops(s.engine.model)
            s.run(r.choice([MOST_BUDGET, 20]) if spent and r.random() < 0.3 else r.randrange(7))
        elif way < 0.85: s.script(r.randrange(8), [r.choice([0, 0, 1, 1, 2, 3, 5, 65535]) for _ in range(r.randrange(6))])
        else: s.load(random_file(r, files), None)
    if r.random() < 0.5: s.list(None)
    s.end()

for n in range(70): random_session(n)

# ---------------------------------------------------------------- printing

def input_lines(): return [line for s in SESSIONS for line in s.lines]
def answer_lines(): return [line for s in SESSIONS for line in s.outcome()]

def print_report():
    said = [x for s in SESSIONS for x in s.said]
    faults, kinds, choosers = {}, {}, {}
    for x in said:
        words = x.split()
        if "layer" in words: faults[int(words[1]), int(words[5])] = faults.get((int(words[1]), int(words[5])), 0) + 1
        name = "refused load" if "layer" in words else "ran, stop " + words[3] if words[0] == "ran" else x
        kinds[name] = kinds.get(name, 0) + 1
    for s in SESSIONS: choosers[texts(*s.words)] = choosers.get(texts(*s.words), 0) + 1
    met = {(n, l) for n, ls in LAYERS.items() for l in ls}
    if met != set(faults): sys.exit("faults and layers not met: %s" % sorted(met ^ set(faults)))
    print("%d sessions, %d calls, %d bytes of input, %d bytes of answers" % (
        len(SESSIONS), len(said), sum(len(x) + 1 for x in input_lines()), sum(len(x) + 1 for x in answer_lines())))
    print("answers: " + ", ".join("%s x%d" % p for p in sorted(kinds.items())))
    print("faults by number and layer: " + ", ".join("%d/%d x%d" % (n, l, k) for (n, l), k in sorted(faults.items())))
    print("choosers: " + ", ".join("%s x%d" % p for p in sorted(choosers.items())))
    print("most steps of a session: %d; most calls: %d" % (max(len(s.journal.items) for s in SESSIONS), max(len(s.said) for s in SESSIONS)))
    print("open tables: %d; journals full at the end: %d; answers left out in %d" % (
        sum(s.open for s in SESSIONS), sum(len(s.journal.items) == s.journal.room for s in SESSIONS),
        sum(len(s.said) > s.answers.room for s in SESSIONS)))

if __name__ == "__main__":
    what = sys.argv[1] if sys.argv[1:] else "report"
    if what == "input": print("\n".join(input_lines()))
    elif what == "answers": print("\n".join(answer_lines()))
    elif what == "names": print("\n".join("%3d  %s" % (n, s.name) for n, s in enumerate(SESSIONS)))
    elif what == "report": print_report()
    elif what == "write":
        for name, lines in (("stdin", input_lines()), ("stdout", answer_lines())):
            with open(os.path.join(sys.argv[2], name), "w") as f: f.write("\n".join(lines) + "\n")
    else: sys.exit(__doc__)
