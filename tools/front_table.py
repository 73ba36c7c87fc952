#!/usr/bin/env python3
"""Model files for the shell's `fronts`, each with the answer it must get.

`python3 tools/front_table.py` prints, for every file of the table, a comment line
with the answer and a line `fronts HEX`. The answers are written in the table by
hand, worked out from the rules; the script holds each one to tools/oracle.py.

A statement without variables and declarations before it begins at place 8; six
places further on for each variable, and eight for each declaration.
"""
import sys
sys.dont_write_bytecode = True
from oracle import *
from check_docs import SITE, A, nots, sel, full_house, guard_unknown
from file_table import one, put, left, right, even, BUILD_SITE, SKIP, IUNK

TABLE = []

def T(what, data, *classes):
    """a file, and for each of its classes the lines of its fronts"""
    lines = []
    for i, fronts in enumerate(classes): lines += ["class %d fronts %d" % (i, len(fronts))] + list(fronts)
    TABLE.append((what, bytes(data), lines))

def R(what, data, line):
    """a refused file"""
    TABLE.append((what, bytes(data), [line]))

YES, NO, UNK = ("BOOL", 1), ("BOOL", 0), ("BOOL", 2)
def INT(n): return ("INT", n)
def VAR(v): return ("VAR", v)
def SET(v, e): return ("SET", v, e)
IB = [(I, 5), (B, 1)]                                 # the statement is at 20

# ---------------------------------------------------------------- SKIP and SET

T("SKIP", one(SKIP), ["0 internal leaves"])

def S(what, v, e, value):
    """SET in a class of variable 0, the Integer 5, and variable 1, the Boolean true"""
    T("SET: " + what, one(SET(v, e), IB), ["0 set %d %s leaves" % (v, value)])

S("a number", 0, INT(7), "7")
S("the smallest number", 0, INT(-2147483648), "-2147483648")
S("the unknown Integer", 0, IUNK, "?i")
S("an Integer variable", 0, VAR(0), "5")
S("false", 1, NO, "false")
S("true", 1, YES, "true")
S("the unknown Boolean", 1, UNK, "?b")
S("a Boolean variable", 1, VAR(1), "true")
S("ADD", 0, ("ADD", VAR(0), INT(2)), "7")
S("SUB, the second part is taken away", 0, ("SUB", VAR(0), INT(7)), "-2")
S("MUL", 0, ("MUL", VAR(0), INT(-3)), "-15")
S("DIV drops the fraction toward zero", 0, ("DIV", INT(-7), INT(2)), "-3")
S("DIV by 0", 0, ("DIV", VAR(0), INT(0)), "?i")
S("ADD of an unknown part", 0, ("ADD", VAR(0), IUNK), "?i")
S("a sum above the range", 0, ("ADD", INT(2147483647), INT(1)), "?i")
S("a difference below the range", 0, ("SUB", INT(-2147483648), INT(1)), "?i")
S("a product above the range", 0, ("MUL", INT(65536), INT(32768)), "?i")
S("a quotient above the range", 0, ("DIV", INT(-2147483648), INT(-1)), "?i")
S("LESS, true", 1, ("LESS", VAR(0), INT(6)), "true")
S("LESS of the same", 1, ("LESS", VAR(0), INT(5)), "false")
S("LESS of an unknown part", 1, ("LESS", IUNK, VAR(0)), "?b")
S("SAME of Integers", 1, ("SAME", VAR(0), INT(5)), "true")
S("SAME of Booleans", 1, ("SAME", VAR(1), NO), "false")
S("SAME of an unknown part", 1, ("SAME", UNK, VAR(1)), "?b")
S("AND with a false part", 1, ("AND", UNK, NO), "false")
S("AND, unknown", 1, ("AND", UNK, VAR(1)), "?b")
S("OR with a true part", 1, ("OR", UNK, VAR(1)), "true")
S("OR, unknown", 1, ("OR", UNK, NO), "?b")
S("NOT", 1, ("NOT", VAR(1)), "false")
S("NOT of the unknown", 1, ("NOT", UNK), "?b")
S("nested: NOT (5 < 5 + 1)", 1, ("NOT", ("LESS", VAR(0), ("ADD", VAR(0), INT(1)))), "false")
S("nested left: (5 - 1) - 1", 0, ("SUB", ("SUB", VAR(0), INT(1)), INT(1)), "3")
S("nested right: 5 - (1 - 1)", 0, ("SUB", VAR(0), ("SUB", INT(1), INT(1))), "5")

EIGHT = [(I, 10), (B, 0), (I, None), (B, None), (I, -1), (B, 1), (I, 60), (I, 70)]
for v, value in enumerate(["10", "false", "?i", "?b", "-1", "true", "60", "70"]):
    T("the start value of variable %d of eight" % v, one(SET(v, VAR(v)), EIGHT), ["0 set %d %s leaves" % (v, value)])
T("the last of eight variables into the first", one(SET(0, VAR(7)), EIGHT), ["0 set 0 70 leaves"])

# ---------------------------------------------------------------- SEND and RECV

T("SEND without values", one(("SEND", 3, 9, []), (), [(0, 3, 9, ())]), ["0 send 3 9 leaves"])
T("SEND of one value", one(("SEND", 0, 0, [VAR(0)]), [(I, -4)], [(0, 0, 0, (I,))]), ["0 send 0 0 -4 leaves"])
T("SEND of a value above the range", one(("SEND", 0, 0, [("MUL", VAR(0), VAR(0))]), [(I, 46341)], [(0, 0, 0, (I,))]),
  ["0 send 0 0 ?i leaves"])
T("SEND of four values", one(("SEND", 31, 254, [VAR(0), VAR(1), IUNK, UNK]), IB, [(0, 31, 254, (I, B, I, B))]),
  ["0 send 31 254 5 true ?i ?b leaves"])
T("SEND of four values, each worked out",
  one(("SEND", 1, 1, [("ADD", VAR(0), INT(1)), ("SUB", VAR(0), INT(1)), ("MUL", VAR(0), INT(2)), ("DIV", VAR(0), INT(2))]), IB,
      [(0, 1, 1, (I, I, I, I))]),
  ["0 send 1 1 6 4 10 2 leaves"])
T("RECV without variables", one(("RECV", 0, 0, []), (), [(1, 0, 0, ())]), ["0 receive 0 0 leaves"])
T("RECV into one variable", one(("RECV", 7, 8, [1]), IB, [(1, 7, 8, (B,))]), ["0 receive 7 8 1 leaves"])
T("RECV into four variables, in the order written",
  one(("RECV", 4, 7, [3, 1, 0, 2]), EIGHT, [(1, 4, 7, (B, B, I, I))]), ["0 receive 4 7 3 1 0 2 leaves"])

# ---------------------------------------------------------------- SEQ

T("SEQ", one(("SEQ", SKIP, SKIP)), ["0 internal leaves 12"])
T("SEQ nested left", one(left("SEQ", [SKIP] * 3)), ["0 internal leaves 15 16"])
T("SEQ nested right", one(right("SEQ", [SKIP] * 3)), ["0 internal leaves 12"])
T("SEQ nested left and right", one(("SEQ", ("SEQ", SKIP, SKIP), ("SEQ", SKIP, SKIP))), ["0 internal leaves 15 16"])
T("SEQ of SET and a SET that does not count yet", one(("SEQ", SET(0, INT(1)), SET(0, VAR(0))), IB), ["0 set 0 1 leaves 30"])
T("SEQ of RECV and SEND", one(("SEQ", ("RECV", 2, 0, []), ("SEND", 2, 0, [])), (), [(1, 2, 0, ()), (0, 2, 0, ())]),
  ["0 receive 2 0 leaves 35"])
T("31 SEQs nested left: 31 statements left", one(left("SEQ", [SKIP] * 32)),
  ["0 internal leaves " + " ".join(str(p) for p in range(102, 133))])
T("30 SEQs nested left over a DO: 32 statements left", one(left("SEQ", [("DO", UNK, SKIP)] + [SKIP] * 30)),
  ["0 internal leaves 103 98 " + " ".join(str(p) for p in range(104, 134)),
   "1 internal leaves " + " ".join(str(p) for p in range(104, 134))])
T("a thousand SKIPs, SEQs nested evenly", one(even("SEQ", [SKIP] * 1000)),
  ["0 internal leaves 36 41 54 83 144 265 514 1011 2008"])

# ---------------------------------------------------------------- SEL

def G(e, n): return ("GUARD", e, SET(0, INT(n)))
def F(number, n): return "%d set 0 %d leaves" % (number, n)
def P(n): return SET(0, INT(n))

T("SEL", one(("SEL", SKIP, SKIP)), ["0 internal leaves", "1 internal leaves"])
T("SEL of SETs", one(("SEL", P(1), P(2)), IB), [F(0, 1), F(1, 2)])
T("SEL of SEND and RECV", one(("SEL", ("SEND", 1, 2, [VAR(0)]), ("RECV", 1, 2, [0])), IB, [(0, 1, 2, (I,)), (1, 1, 2, (I,))]),
  ["0 send 1 2 5 leaves", "1 receive 1 2 0 leaves"])
T("SEL nested left, the first guard shut", one(("SEL", ("SEL", G(NO, 1), P(2)), G(YES, 3)), IB), [F(1, 2), F(2, 3)])
T("SEL nested left, the second guard shut", one(("SEL", ("SEL", P(1), G(UNK, 2)), P(3)), IB), [F(0, 1), F(2, 3)])
T("SEL nested left, the last guard shut", one(("SEL", ("SEL", P(1), P(2)), G(NO, 3)), IB), [F(0, 1), F(1, 2)])
T("SEL nested right, the first guard shut", one(("SEL", G(UNK, 1), ("SEL", P(2), P(3))), IB), [F(1, 2), F(2, 3)])
T("SEL nested right, the second guard shut", one(("SEL", P(1), ("SEL", G(NO, 2), P(3))), IB), [F(0, 1), F(2, 3)])
T("SEL, all guards shut", one(("SEL", G(NO, 1), ("SEL", G(UNK, 2), G(NO, 3))), IB), [])
T("SEL of four and four, nested evenly, guards shut by turns",
  one(even("SEL", [G((YES, NO)[n % 2], n) for n in range(8)]), IB), [F(0, 0), F(2, 2), F(4, 4), F(6, 6)])
T("eight, nested left, only the last open", one(left("SEL", [G(NO, n) for n in range(7)] + [P(7)]), IB), [F(7, 7)])
T("eight, nested right, only the last open", one(right("SEL", [G(UNK, n) for n in range(7)] + [P(7)]), IB), [F(7, 7)])
T("eight, nested left, all open", one(left("SEL", [P(n) for n in range(8)]), IB), [F(n, n) for n in range(8)])
T("SEL of a shut GUARD over SEL, and SKIP", one(("SEL", ("GUARD", NO, ("SEL", SKIP, SKIP)), SKIP)), ["2 internal leaves"])
T("SEL of SEQs", one(("SEL", ("SEQ", SKIP, SKIP), ("SEQ", SKIP, SKIP))), ["0 internal leaves 15", "1 internal leaves 20"])
T("SEQ of SEL: either way goes on to the rest", one(("SEQ", ("SEL", SKIP, SKIP), SKIP)),
  ["0 internal leaves 16", "1 internal leaves 16"])
T("SEL of IFs, the first false", one(("SEL", ("IF", NO, SKIP, SKIP), SKIP)), ["1 internal leaves 19", "2 internal leaves"])
T("SEL of IFs, both unknown", one(("SEL", ("IF", UNK, SKIP, SKIP), ("IF", UNK, SKIP, SKIP))),
  ["0 internal leaves 18", "1 internal leaves 19", "2 internal leaves 27", "3 internal leaves 28"])
T("SEL of DOs, false and true", one(("SEL", ("DO", NO, SKIP), ("DO", YES, SKIP))),
  ["1 internal leaves", "2 internal leaves 22 17"])
T("four DOs of unknown conditions", one(right("SEL", [("DO", UNK, SKIP)] * 4)),
  ["0 internal leaves 16 11", "1 internal leaves", "2 internal leaves 25 20", "3 internal leaves",
   "4 internal leaves 34 29", "5 internal leaves", "6 internal leaves 40 35", "7 internal leaves"])

# ---------------------------------------------------------------- GUARD

T("GUARD, true", one(("GUARD", YES, SKIP)), ["0 internal leaves"])
T("GUARD, false", one(("GUARD", NO, SKIP)), [])
T("GUARD over SEQ", one(("GUARD", YES, ("SEQ", SKIP, SKIP))), ["0 internal leaves 17"])
T("GUARD in GUARD, both true", one(("GUARD", YES, ("GUARD", YES, ("SEQ", SKIP, SKIP)))), ["0 internal leaves 22"])
T("GUARD in GUARD, the inner unknown", one(("GUARD", YES, ("GUARD", UNK, SKIP))), [])
T("GUARD in GUARD, the outer false", one(("GUARD", NO, ("GUARD", YES, SKIP))), [])
T("a shut GUARD first in SEQ", one(("SEQ", ("GUARD", NO, SKIP), SKIP)), [])
T("an open GUARD first in SEQ", one(("SEQ", ("GUARD", YES, SKIP), SKIP)), ["0 internal leaves 17"])
T("GUARD by a variable, true", one(("GUARD", ("LESS", VAR(0), INT(6)), SKIP), IB), ["0 internal leaves"])
T("GUARD by a variable, false", one(("GUARD", ("LESS", VAR(0), INT(5)), SKIP), IB), [])
T("GUARD by an unknown variable", one(("GUARD", ("LESS", VAR(0), INT(5)), SKIP), [(I, None)]), [])
T("GUARD over IF, unknown", one(("GUARD", YES, ("IF", UNK, SKIP, SKIP))), ["0 internal leaves 20", "1 internal leaves 21"])

# ---------------------------------------------------------------- IF

T("IF, true", one(("IF", YES, SKIP, SKIP)), ["0 internal leaves 15"])
T("IF, false", one(("IF", NO, SKIP, SKIP)), ["1 internal leaves 16"])
T("IF, unknown", one(("IF", UNK, SKIP, SKIP)), ["0 internal leaves 15", "1 internal leaves 16"])
T("IF by a variable", one(("IF", VAR(1), SKIP, SKIP), IB), ["0 internal leaves 27"])
T("IF in SEQ, unknown", one(("SEQ", ("IF", UNK, SKIP, SKIP), SKIP)), ["0 internal leaves 18 20", "1 internal leaves 19 20"])
T("IF over a shut GUARD: the IF does not look inside", one(("IF", YES, ("GUARD", NO, SKIP), SKIP)), ["0 internal leaves 15"])
T("IF in IF", one(("IF", NO, SKIP, ("IF", YES, SKIP, SKIP))), ["1 internal leaves 16"])

# ---------------------------------------------------------------- DO

T("DO, true", one(("DO", YES, SKIP)), ["0 internal leaves 13 8"])
T("DO, false", one(("DO", NO, SKIP)), ["1 internal leaves"])
T("DO, unknown", one(("DO", UNK, SKIP)), ["0 internal leaves 13 8", "1 internal leaves"])
T("DO in SEQ, true", one(("SEQ", ("DO", YES, SKIP), SKIP)), ["0 internal leaves 16 11 17"])
T("DO in SEQ, false", one(("SEQ", ("DO", NO, SKIP), SKIP)), ["1 internal leaves 17"])
T("DO in SEQ, unknown", one(("SEQ", ("DO", UNK, SKIP), SKIP)), ["0 internal leaves 16 11 17", "1 internal leaves 17"])
T("DO second in SEQ", one(("SEQ", SKIP, ("DO", YES, SKIP))), ["0 internal leaves 12"])
T("DO in DO", one(("DO", YES, ("DO", YES, SKIP))), ["0 internal leaves 13 8"])
T("DO over SEQ", one(("DO", YES, ("SEQ", SKIP, SKIP))), ["0 internal leaves 13 8"])
T("DO by a variable, 0 < 5", one(("DO", ("LESS", INT(0), VAR(0)), SET(0, ("SUB", VAR(0), INT(1)))), IB),
  ["0 internal leaves 33 20"])
T("DO by an unknown variable", one(("DO", ("LESS", INT(0), VAR(0)), SKIP), [(I, None)]),
  ["0 internal leaves 27 14", "1 internal leaves"])
T("DO in SEQ in SEQ", one(("SEQ", ("SEQ", ("DO", UNK, SKIP), SKIP), SKIP)),
  ["0 internal leaves 19 14 20 21", "1 internal leaves 20 21"])
T("GUARD over DO", one(("GUARD", YES, ("DO", UNK, SKIP))), ["0 internal leaves 18 13", "1 internal leaves"])

# ---------------------------------------------------------------- several classes

T("eight classes, each with its own start value",
  enc_file([([(I, 11 * k)], [], SET(0, VAR(0))) for k in range(8)], ("PROC", 3)),
  *[["0 set 0 %d leaves" % (11 * k)] for k in range(8)])
T("classes of different heads",
  enc_file([([], [], ("SEQ", SKIP, SKIP)),
            (IB, [(0, 1, 1, (I,))], ("SEQ", ("SEND", 1, 1, [VAR(0)]), SKIP)),
            ([(B, None)], [(1, 1, 1, ()), (1, 2, 2, (B,))], ("SEQ", ("RECV", 2, 2, [0]), SKIP))], ("PROC", 1)),
  ["0 internal leaves 12"], ["0 send 1 1 5 leaves 46"], ["0 receive 2 2 0 leaves 84"])

# ---------------------------------------------------------------- samples

T("sample A: one meeting", A, ["0 send 1 2 7 leaves"], ["0 receive 1 2 0 leaves"])
T("sample B: A with byte 55 made 00", put(A, 55, 0), ["0 send 1 2 7 leaves"], ["0 receive 1 2 0 leaves"])
R("sample C: A without its last byte", A[:-1], "refused 4 place 64 layer 5")
R("sample D: A with byte 27 made 01, an absent variable", put(A, 27, 1), "refused 6 place 26 layer 4")
R("sample E: A with byte 24 made 03, not declared", put(A, 24, 3), "refused 8 place 22 layer 3")
T("sample G: GUARD with an unknown guard", guard_unknown(), [])
T("sample H: 30 NOTs over true", nots(30), ["0 set 0 true leaves"])
R("sample H: 31 NOTs", nots(31), "refused 5 place 47 layer 4")
T("29 NOTs over true", nots(29), ["0 set 0 false leaves"])
T("sample I: eight SKIPs", sel(8), ["%d internal leaves" % n for n in range(8)])
R("sample I: nine SKIPs", sel(9), "refused 9 place 8 layer 3")
T("the small build site", SITE, ["0 receive 0 0 0 leaves 41"], ["0 receive 4 0 0 leaves 112"])
T("four senders and four receivers with eight fronts each", full_house(),
  ["%d send 0 0 leaves" % n for n in range(8)], ["%d receive 0 0 leaves" % n for n in range(8)])
T("the build site of examples/build-site.txt", BUILD_SITE,
  ["0 internal leaves 65 60"], ["0 internal leaves 182 177"], ["0 internal leaves 297 292"])
R("no byte at all", b"", "refused 1 place 0 layer 1")

# ---------------------------------------------------------------- printing

def hold():
    """every answer of the table against the rules once more"""
    for what, data, want in TABLE:
        got = shell_fronts(hexs(data).split())
        if got != want: sys.exit("%s: written %s, found %s" % (what, want, got))
    names = [what for what, _, _ in TABLE]
    assert len(set(names)) == len(names), [n for n in names if names.count(n) > 1]

if __name__ == "__main__":
    hold()
    for what, data, want in TABLE:
        print("# %s, expected: %s" % (what, "; ".join(want)))
        print(("fronts " + hexs(data)).strip())
