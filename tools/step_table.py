#!/usr/bin/env python3
"""Model files for the shell's `steps`, each with the answer it must get.

The answers are written in the table by hand, worked out from docs/BEHAVIOUR.md and
docs/CALLS.md; the script holds each one to tools/oracle.py and to the rules on
steps once more, stated below by another way. The two are also compared on random
models.

    python3 tools/step_table.py             the table: comments and lines `steps HEX`
    python3 tools/step_table.py answers     what the program must print for them
    python3 tools/step_table.py random N    lines of N random models
    python3 tools/step_table.py random-answers N
"""
import random, sys
sys.dont_write_bytecode = True
from oracle import *
from check_docs import SITE, A, nots, sel, full_house, guard_unknown
from file_table import put, left, right, even, over, BUILD_SITE, SKIP, IUNK

TABLE = []

def T(what, data, *want):
    """an admitted file and its steps"""
    lines = [" ".join(str(n) for n in s) for s in want]
    TABLE.append((what, bytes(data), ["listed %d" % len(want)] + lines))

def R(what, data, line):
    """a refused file"""
    TABLE.append((what, bytes(data), [line]))

# ---------------------------------------------------------------- builders

YES, NO, UNK = ("BOOL", 1), ("BOOL", 0), ("BOOL", 2)
def INT(n): return ("INT", n)
def VAR(v): return ("VAR", v)
def SEND(c, m=0, *es): return ("SEND", c, m, list(es))
def RECV(c, m=0, *vs): return ("RECV", c, m, list(vs))
def GUARD(e, s): return ("GUARD", e, s)
def SEL(*ss): return right("SEL", list(ss))
def PAR(*bs): return right("PAR", list(bs))
def HIDE(*cs): return lambda b: ("HIDE", list(cs), b)
def RENAME(a, b): return lambda x: ("RENAME", a, b, x)
P = [("PROC", k) for k in range(8)]

def kind_of(e, vs):
    if e[0] == "VAR": return vs[e[1]][0]
    return I if e[0] in ("INT", "IUNK", "ADD", "SUB", "MUL", "DIV") else B

def exchanges(s, vs):
    """what a statement sends and receives, as declarations"""
    if s[0] == "SEND": return [(0, s[1], s[2], tuple(kind_of(e, vs) for e in s[3]))]
    if s[0] == "RECV": return [(1, s[1], s[2], tuple(vs[v][0] for v in s[3]))]
    if s[0] == "SET": return []
    return [d for part in s[1:] if type(part) is tuple for d in exchanges(part, vs)]

IBI = [(I, 5), (B, 1), (I, None)]                     # variables of every class: two Integers, a Boolean between them

def model(behaviour, *statements):
    """a file of these classes; each declares what its statement sends and receives"""
    return enc_file([(IBI, list(dict.fromkeys(exchanges(s, IBI))), s) for s in statements], behaviour)

# the steps: an internal one, a meeting, a send to and a receive from the outside
def own(p, f): return (0, p, f, 255, 255, 255, 255)
def meet(p, f, q, g, c, m=0): return (1, p, f, q, g, c, m)
def out(p, f, c, m=0): return (2, p, f, 255, 255, c, m)
def into(p, f, c, m=0): return (3, p, f, 255, 255, c, m)

# ---------------------------------------------------------------- samples

T("sample A: one meeting", A, meet(0, 0, 1, 0, 1, 2))
T("sample B: A with byte 55 made 00, nothing hidden: both fronts also go outside", put(A, 55, 0),
  meet(0, 0, 1, 0, 1, 2), out(0, 0, 1, 2), into(1, 0, 1, 2))
R("sample C: A without its last byte", A[:-1], "refused 4 place 64 layer 5")
R("sample D: A with byte 27 made 01, an absent variable", put(A, 27, 1), "refused 6 place 26 layer 4")
R("sample E: A with byte 24 made 03, not declared", put(A, 24, 3), "refused 8 place 22 layer 3")
T("sample G: GUARD with an unknown guard", guard_unknown())
T("sample H: 30 NOTs over true, a SET", nots(30), own(0, 0))
T("sample I: eight SKIPs", sel(8), *[own(0, f) for f in range(8)])
R("sample I: nine SKIPs", sel(9), "refused 9 place 8 layer 3")
R("no byte at all", b"", "refused 1 place 0 layer 1")
T("the small build site: the planner awaits a number of jobs from outside", SITE, into(0, 0, 0))
T("the build site of examples/build-site.txt: four loops to enter", BUILD_SITE, *[own(p, 0) for p in range(4)])

# ---------------------------------------------------------------- internal steps

T("SKIP, SET, IF and DO are internal",
  model(PAR(*P[:4]), SKIP, ("SET", 0, INT(1)), ("IF", YES, SKIP, SKIP), ("DO", YES, SKIP)),
  own(0, 0), own(1, 0), own(2, 0), own(3, 0))
T("conditions that are false have front 1, unknown ones both",
  model(PAR(*P[:4]), ("IF", NO, SKIP, SKIP), ("IF", UNK, SKIP, SKIP), ("DO", NO, SKIP), ("DO", UNK, SKIP)),
  own(0, 1), own(1, 0), own(1, 1), own(2, 1), own(3, 0), own(3, 1))
T("a front keeps its number beside guards that are not true",
  model(P[0], SEL(GUARD(NO, SKIP), GUARD(UNK, SEL(SKIP, SKIP)), GUARD(YES, SKIP), SKIP)), own(0, 3), own(0, 4))
T("eight processes of eight internal fronts: ordered by process, then front",
  model(PAR(*[P[0]] * 8), SEL(*[SKIP] * 8)), *[own(p, f) for p in range(8) for f in range(8)])
T("processes are numbered as their PROCs stand, whatever their classes",
  model(PAR(P[2], P[0], P[1]), SEL(SKIP, SKIP), GUARD(NO, SKIP), SKIP), own(0, 0), own(1, 0), own(1, 1))
T("internal steps first, then meetings, then sends, then receives",
  model(PAR(P[0], P[1]), SEL(RECV(1), SKIP, SEND(1)), SEL(SEND(1), RECV(1), SKIP)),
  own(0, 1), own(1, 2), meet(0, 2, 1, 1, 1), meet(1, 0, 0, 0, 1),
  out(0, 2, 1), out(1, 0, 1), into(0, 0, 1), into(1, 1, 1))

# ---------------------------------------------------------------- no step

T("guards false and unknown: no process can move", model(PAR(P[0], P[1]), GUARD(NO, SKIP), GUARD(UNK, SEND(0))))
T("a send that is hidden, and no receiver", model(HIDE(1)(P[0]), SEND(1)))
T("a receive that is hidden, and no sender", model(HIDE(1)(P[0]), RECV(1, 0, 0)))
T("two senders on a hidden channel", model(HIDE(1)(PAR(P[0], P[0])), SEND(1)))
T("sender and receiver, each hidden below the PAR", model(PAR(HIDE(1)(P[0]), HIDE(1)(P[1])), SEND(1), RECV(1)))
T("a hidden channel whose receiver is shut by its guard",
  model(HIDE(1)(PAR(P[0], P[1])), SEND(1), GUARD(("LESS", VAR(2), INT(3)), RECV(1))))
T("a receiver that first has to send on another hidden channel",
  model(HIDE(1, 2)(PAR(P[0], P[1])), SEND(1), ("SEQ", SEND(2), RECV(1))))

# ---------------------------------------------------------------- one process, outside

T("a send passes the root", model(P[0], SEND(3, 9, VAR(0))), out(0, 0, 3, 9))
T("a receive passes the root", model(P[0], RECV(3, 9, 1)), into(0, 0, 3, 9))
T("the highest channel and message", model(P[0], SEL(SEND(31, 254), RECV(31, 254))), out(0, 0, 31, 254), into(0, 1, 31, 254))
T("HIDE of each end of its set, and the channels beside", model(HIDE(0, 8, 31)(P[0]), SEL(*[SEND(c) for c in (0, 1, 7, 8, 9, 30, 31)])),
  out(0, 1, 1), out(0, 2, 7), out(0, 4, 9), out(0, 5, 30))
T("HIDE of every channel", model(HIDE(*range(32))(P[0]), SEL(SEND(0), RECV(16), SKIP, SEND(31))), own(0, 2))
T("HIDE of no channel", model(HIDE()(P[0]), SEND(0)), out(0, 0, 0))
T("RENAME turns sends and receives alike, and no other channel",
  model(RENAME(1, 2)(P[0]), SEL(SEND(1), RECV(1), SEND(2), SEND(3))),
  out(0, 0, 2), out(0, 2, 2), out(0, 3, 3), into(0, 1, 2))
T("RENAME of a channel to itself", model(RENAME(1, 1)(P[0]), SEND(1)), out(0, 0, 1))
T("RENAME 1 to 2, above it 2 to 3: channel 1 becomes 3",
  model(RENAME(2, 3)(RENAME(1, 2)(P[0])), SEL(SEND(1), SEND(2), SEND(3))), out(0, 0, 3), out(0, 1, 3), out(0, 2, 3))
T("RENAME 2 to 3, above it 1 to 2: channel 1 becomes 2",
  model(RENAME(1, 2)(RENAME(2, 3)(P[0])), SEL(SEND(1), SEND(2), SEND(3))), out(0, 0, 2), out(0, 1, 3), out(0, 2, 3))
T("RENAME 1 to 2, above it 2 to 1: both become 1",
  model(RENAME(2, 1)(RENAME(1, 2)(P[0])), SEL(SEND(1), SEND(2))), out(0, 0, 1), out(0, 1, 1))
T("HIDE of 1 below RENAME 1 to 2: stopped", model(RENAME(1, 2)(HIDE(1)(P[0])), SEND(1)))
T("HIDE of 1 above RENAME 1 to 2: channel 1 passes as 2", model(HIDE(1)(RENAME(1, 2)(P[0])), SEND(1)), out(0, 0, 2))
T("HIDE of 2 above RENAME 1 to 2: stopped", model(HIDE(2)(RENAME(1, 2)(P[0])), SEND(1)))
T("HIDE of 2 below RENAME 1 to 2: channel 1 passes as 2", model(RENAME(1, 2)(HIDE(2)(P[0])), SEL(SEND(1), SEND(2))),
  out(0, 0, 2))

def chain(pairs):
    """RENAMEs over one process, the first pair lowest"""
    b = P[0]
    for pair in pairs: b = RENAME(*pair)(b)
    return b

T("31 RENAMEs, 0 to 1 lowest and 30 to 31 at the root: channel 0 becomes 31",
  model(chain((c, c + 1) for c in range(31)), SEL(SEND(0), RECV(17))), out(0, 0, 31), into(0, 1, 31))
T("31 RENAMEs, 30 to 31 lowest and 0 to 1 at the root: each channel goes one up",
  model(chain((c, c + 1) for c in reversed(range(31))), SEL(SEND(0), RECV(17))), out(0, 0, 1), into(0, 1, 18))

# ---------------------------------------------------------------- two processes

T("a send and a receive meet, and both are outside", model(PAR(P[0], P[1]), SEND(1), RECV(1)),
  meet(0, 0, 1, 0, 1), out(0, 0, 1), into(1, 0, 1))
T("the receiver stands first", model(PAR(P[1], P[0]), SEND(1), RECV(1)), meet(1, 0, 0, 0, 1), out(1, 0, 1), into(0, 0, 1))
T("two sends do not meet, nor do two receives",
  model(PAR(P[0], P[0], P[1], P[1]), SEND(1), RECV(2)), out(0, 0, 1), out(1, 0, 1), into(2, 0, 2), into(3, 0, 2))
T("different channels do not meet", model(PAR(P[0], P[1]), SEND(1), RECV(2)), out(0, 0, 1), into(1, 0, 2))
T("HIDE above the PAR: the two meet at the PAR below it", model(HIDE(1)(PAR(P[0], P[1])), SEND(1), RECV(1)),
  meet(0, 0, 1, 0, 1))
T("HIDE on the sender's side only: the receiver is outside", model(PAR(HIDE(1)(P[0]), P[1]), SEND(1), RECV(1)), into(1, 0, 1))
T("HIDE on the receiver's side only: the sender is outside", model(PAR(P[0], HIDE(1)(P[1])), SEND(1), RECV(1)), out(0, 0, 1))
T("HIDE of another channel on the sender's side", model(PAR(HIDE(2)(P[0]), P[1]), SEND(1), RECV(1)),
  meet(0, 0, 1, 0, 1), out(0, 0, 1), into(1, 0, 1))
T("a process does not meet itself", model(P[0], SEL(SEND(1), RECV(1))), out(0, 0, 1), into(0, 1, 1))
T("a process does not meet itself, hidden", model(HIDE(1)(P[0]), SEL(SEND(1), RECV(1))))
T("two processes of one class meet both ways", model(PAR(P[0], P[0]), SEL(SEND(1), RECV(1))),
  meet(0, 0, 1, 1, 1), meet(1, 0, 0, 1, 1), out(0, 0, 1), out(1, 0, 1), into(0, 1, 1), into(1, 1, 1))
T("one send with two receives of the partner", model(HIDE(1)(PAR(P[0], P[1])), SEND(1), SEL(RECV(1), SKIP, RECV(1))),
  own(1, 1), meet(0, 0, 1, 0, 1), meet(0, 0, 1, 2, 1))
T("a meeting behind a shut guard keeps its fronts",
  model(HIDE(1)(PAR(P[0], P[1])), SEL(GUARD(NO, SEND(1)), SEND(1)), SEL(GUARD(UNK, SEL(RECV(1), RECV(1))), RECV(1))),
  meet(0, 1, 1, 2, 1))
T("only the first of a SEQ: the second sends do not count",
  model(HIDE(1, 2)(PAR(P[0], P[1])), ("SEQ", SEND(1), SEND(2)), ("SEQ", SEL(RECV(2), RECV(1)), RECV(1))),
  meet(0, 0, 1, 1, 1))

# ---------------------------------------------------------------- messages, counts and kinds

def pair(what, s, r, *want):
    T(what, model(HIDE(1)(PAR(P[0], P[1])), s, r), *want)

pair("different messages do not meet", SEND(1, 3), RECV(1, 4))
pair("different counts do not meet: one value for none", SEND(1, 0, INT(1)), RECV(1))
pair("different counts do not meet: three values for the first two", SEND(1, 0, INT(1), YES, INT(2)), RECV(1, 0, 0, 1))
pair("different kinds do not meet: an Integer for a Boolean", SEND(1, 0, INT(1)), RECV(1, 0, 1))
pair("different kinds do not meet: in another order", SEND(1, 0, INT(1), YES), RECV(1, 0, 1, 0))
pair("different kinds do not meet: the last of three", SEND(1, 0, INT(1), YES, NO), RECV(1, 0, 0, 1, 2))
pair("the kinds decide, not what is known: unknown values", SEND(1, 0, IUNK, UNK), RECV(1, 0, 2, 1), meet(0, 0, 1, 0, 1))
pair("the kinds decide, not the order of the variables", SEND(1, 0, INT(1), YES, INT(2)), RECV(1, 0, 2, 1, 0), meet(0, 0, 1, 0, 1))
pair("of four receives the one that fits", SEND(1, 7, ("LESS", VAR(0), INT(1))),
     SEL(RECV(1, 7), RECV(1, 7, 0), RECV(1, 7, 1), RECV(1, 7, 1, 0)), meet(0, 0, 1, 2, 1, 7))
T("four values of kinds Integer, Boolean, Boolean, Integer",
  enc_file([([], [(0, 4, 1, (I, B, B, I))], SEND(4, 1, INT(1), YES, UNK, IUNK)),
            ([(B, 0), (I, 0), (I, 0), (B, 0)], [(1, 4, 1, (I, B, B, I))], RECV(4, 1, 1, 3, 0, 2))], HIDE(4)(PAR(P[0], P[1]))),
  meet(0, 0, 1, 0, 4, 1))

# ---------------------------------------------------------------- RENAME and HIDE on the sides of a PAR

T("RENAME on the sender's side to the receiver's channel", model(PAR(RENAME(1, 2)(P[0]), P[1]), SEND(1), RECV(2)),
  meet(0, 0, 1, 0, 2), out(0, 0, 2), into(1, 0, 2))
T("RENAME on the sender's side away from the receiver's channel", model(PAR(RENAME(1, 2)(P[0]), P[1]), SEND(1), RECV(1)),
  out(0, 0, 2), into(1, 0, 1))
T("RENAME on both sides to one channel", model(PAR(RENAME(1, 3)(P[0]), RENAME(2, 3)(P[1])), SEND(1), RECV(2)),
  meet(0, 0, 1, 0, 3), out(0, 0, 3), into(1, 0, 3))
T("RENAME above the PAR: they meet on 1 and go outside on 5", model(RENAME(1, 5)(PAR(P[0], P[1])), SEND(1), RECV(1)),
  meet(0, 0, 1, 0, 1), out(0, 0, 5), into(1, 0, 5))
T("RENAME of both channels above the PAR is too late to meet", model(RENAME(1, 2)(PAR(P[0], P[1])), SEND(1), RECV(2)),
  out(0, 0, 2), into(1, 0, 2))
T("RENAME that joins two channels of the sender", model(HIDE(2)(PAR(RENAME(1, 2)(P[0]), P[1])), SEL(SEND(1), SEND(2)), RECV(2)),
  meet(0, 0, 1, 0, 2), meet(0, 1, 1, 0, 2))
T("chains on the sender's side, 1 to 2, then 2 to 3: they meet on 3",
  model(HIDE(3)(PAR(RENAME(2, 3)(RENAME(1, 2)(P[0])), P[1])), SEND(1), RECV(3)), meet(0, 0, 1, 0, 3))
T("the chain in the other order: 1 arrives as 2, and 3 is stopped by HIDE",
  model(HIDE(3)(PAR(RENAME(1, 2)(RENAME(2, 3)(P[0])), P[1])), SEND(1), RECV(3)), out(0, 0, 2))
T("nested on both sides: 1 to 4 past HIDE of 1; 6 to 5 to 4; 7 stopped on the receiver's side",
  model(PAR(HIDE(1)(RENAME(1, 4)(HIDE(7)(P[0]))), RENAME(5, 4)(HIDE(6, 7)(RENAME(6, 5)(P[1])))),
        SEL(SEND(1), SEND(4), SEND(7)), SEL(RECV(7), RECV(6), RECV(4))),
  meet(0, 0, 1, 1, 4), meet(0, 0, 1, 2, 4), meet(0, 1, 1, 1, 4), meet(0, 1, 1, 2, 4),
  out(0, 0, 4), out(0, 1, 4), into(1, 1, 4), into(1, 2, 4))
T("a HIDE between two RENAMEs stops what the lower one made",
  model(PAR(RENAME(3, 1)(HIDE(2)(RENAME(1, 2)(P[0]))), P[1]), SEL(SEND(1), SEND(2), SEND(3)), RECV(1)),
  meet(0, 2, 1, 0, 1), out(0, 2, 1), into(1, 0, 1))

# ---------------------------------------------------------------- three processes and more

T("one channel arrives at two PARs as two: at the inner one as 1, at the outer one as 2",
  model(PAR(RENAME(1, 2)(PAR(P[0], P[1])), P[2]), SEND(1), RECV(1), RECV(2)),
  meet(0, 0, 1, 0, 1), meet(0, 0, 2, 0, 2), out(0, 0, 2), into(1, 0, 2), into(2, 0, 2))
T("HIDE around the first two: they meet below it, and the third is alone",
  model(PAR(HIDE(1)(PAR(P[0], P[1])), P[1]), SEND(1), RECV(1)), meet(0, 0, 1, 0, 1), into(2, 0, 1))
T("HIDE around the last two: the first sender does not reach the receiver",
  model(PAR(P[0], HIDE(1)(PAR(P[0], P[1]))), SEND(1), RECV(1)), meet(1, 0, 2, 0, 1), out(0, 0, 1))
T("two senders and two receivers that all agree: by sender, then receiver",
  model(HIDE(1)(PAR(P[0], P[0], P[1], P[1])), SEND(1), RECV(1)),
  meet(0, 0, 2, 0, 1), meet(0, 0, 3, 0, 1), meet(1, 0, 2, 0, 1), meet(1, 0, 3, 0, 1))
T("the same, nested to the left, receivers and senders by turns",
  model(HIDE(1)(left("PAR", [P[1], P[0], P[1], P[0]])), SEND(1), RECV(1)),
  meet(1, 0, 0, 0, 1), meet(1, 0, 2, 0, 1), meet(3, 0, 0, 0, 1), meet(3, 0, 2, 0, 1))
T("two senders and two receivers with two fronts each: by sender, its front, receiver, its front",
  model(HIDE(1)(PAR(P[0], P[1], P[0], P[1])), SEL(SEND(1), SEND(1)), SEL(RECV(1), RECV(1))),
  meet(0, 0, 1, 0, 1), meet(0, 0, 1, 1, 1), meet(0, 0, 3, 0, 1), meet(0, 0, 3, 1, 1),
  meet(0, 1, 1, 0, 1), meet(0, 1, 1, 1, 1), meet(0, 1, 3, 0, 1), meet(0, 1, 3, 1, 1),
  meet(2, 0, 1, 0, 1), meet(2, 0, 1, 1, 1), meet(2, 0, 3, 0, 1), meet(2, 0, 3, 1, 1),
  meet(2, 1, 1, 0, 1), meet(2, 1, 1, 1, 1), meet(2, 1, 3, 0, 1), meet(2, 1, 3, 1, 1))
T("the front decides before the receiver: front 0 meets process 2, front 1 process 1",
  model(HIDE(1, 2)(PAR(P[0], P[1], P[2])), SEL(SEND(2), SEND(1)), RECV(1), RECV(2)),
  meet(0, 0, 2, 0, 2), meet(0, 1, 1, 0, 1))
T("three processes of one class, each with the two others",
  model(HIDE(1)(PAR(*[P[0]] * 3)), SEL(SEND(1), RECV(1))),
  meet(0, 0, 1, 1, 1), meet(0, 0, 2, 1, 1), meet(1, 0, 0, 1, 1), meet(1, 0, 2, 1, 1), meet(2, 0, 0, 1, 1), meet(2, 0, 1, 1, 1))
T("eight processes in a ring, nested evenly: each sends to the next",
  model(HIDE(*range(8))(even("PAR", P)), *[SEL(SEND(k), RECV((k + 7) % 8)) for k in range(8)]),
  *[meet(k, 0, (k + 1) % 8, 1, k) for k in range(8)])
T("the ring, its halves hidden: the two ways between the halves are stopped",
  model(PAR(HIDE(*range(8))(left("PAR", P[:4])), HIDE(*range(8))(PAR(*P[4:]))),
        *[SEL(SEND(k), RECV((k + 7) % 8)) for k in range(8)]),
  *[meet(k, 0, k + 1, 1, k) for k in (0, 1, 2, 4, 5, 6)])

def stairs(n):
    """PARs nested to the left, and above each a RENAME of the channel that arrives there to the next one"""
    b = P[0]
    for k in range(1, n): b = RENAME(k - 1, k)(PAR(b, P[1]))
    return b

T("a RENAME above each PAR: the send arrives at each as another channel, and only the receiver there has it",
  model(stairs(4), SEND(0), SEL(RECV(0), RECV(1), RECV(2))),
  meet(0, 0, 1, 0, 0), meet(0, 0, 2, 1, 1), meet(0, 0, 3, 2, 2), out(0, 0, 3),
  into(1, 0, 3), into(1, 1, 3), into(1, 2, 3), into(2, 0, 0), into(2, 1, 3), into(2, 2, 3),
  into(3, 0, 0), into(3, 1, 1), into(3, 2, 3))

# ---------------------------------------------------------------- the most steps

SENDERS, RECEIVERS = range(4), range(4, 8)
EIGHT_FRONTS = [(p, f) for p in SENDERS for f in range(8)], [(p, f) for p in RECEIVERS for f in range(8)]
T("four senders and four receivers with eight fronts each: 1,088 steps, as many as there can be", full_house(),
  *[meet(p, f, q, g, 0) for p, f in EIGHT_FRONTS[0] for q, g in EIGHT_FRONTS[1]],
  *[out(p, f, 0) for p, f in EIGHT_FRONTS[0]], *[into(p, f, 0) for p, f in EIGHT_FRONTS[1]])
T("eight processes of eight fronts, four sends and four receives that agree with none",
  model(PAR(*[P[0]] * 8), SEL(*[SEND(c) for c in range(4)], *[RECV(c, 1) for c in range(4)])),
  *[out(p, f, f) for p in range(8) for f in range(4)], *[into(p, f, f - 4, 1) for p in range(8) for f in range(4, 8)])

# ---------------------------------------------------------------- the rules on steps once more, by paths

def by_number(s, vs):
    """what a statement offers by number: an action, or None where nothing is offered"""
    if s.name == "SEND": return [("send", s.ops[0], s.ops[1], s.kinds)]
    if s.name == "RECV": return [("receive", s.ops[0], s.ops[1], s.kinds)]
    if s.name in ("SKIP", "SET"): return [("internal",)]
    if s.name == "SEQ": return by_number(s.parts[0], vs)
    if s.name == "SEL": return by_number(s.parts[0], vs) + by_number(s.parts[1], vs)
    value = evaluate(s.parts[0], vs)[1]
    if s.name == "GUARD": return [a if value == 1 else None for a in by_number(s.parts[1], vs)]
    return [None if value == 0 else ("internal",), None if value == 1 else ("internal",)]

def paths(b):
    """for each process of a behaviour, in order, the commands above its PROC, the lowest first"""
    if b.name == "PROC": return [[]]
    return [way + [b] for part in b.parts for way in paths(part)]

def travel(channel, commands):
    """the channel that comes out of these commands; None where one stops it"""
    for c in commands:
        if c.name == "HIDE" and c.ops[channel // 8] & 1 << channel % 8: return None
        if c.name == "RENAME" and c.ops[0] == channel: channel = c.ops[1]
    return channel

def below_lowest_par(way, other):
    """the commands of a path below the first PAR that is also above the other process"""
    for k, c in enumerate(way):
        if c.name == "PAR" and any(c is d for d in other): return way[:k]

def steps_by_paths(f):
    """the steps of a file at its start; their order is the order of their seven numbers"""
    ways, fronts = paths(f.behaviour), []
    for p, proc in enumerate(f.procs):
        c = f.classes[proc.ops[0]]
        fronts += [(p, n, a) for n, a in enumerate(by_number(c.statement, c.vars)) if a]
    found = []
    for p, n, a in fronts:
        if a[0] == "internal":
            found.append(own(p, n))
            continue
        end = travel(a[1], ways[p])
        if end is not None: found.append((out if a[0] == "send" else into)(p, n, end, a[2]))
        for q, g, b in fronts:
            if p == q or a[0] != "send" or b[0] != "receive" or a[2:] != b[2:]: continue
            here, there = travel(a[1], below_lowest_par(ways[p], ways[q])), travel(b[1], below_lowest_par(ways[q], ways[p]))
            if here is not None and here == there: found.append(meet(p, n, q, g, here, a[2]))
    assert len(set(found)) == len(found)
    return sorted(found)

# ---------------------------------------------------------------- random models

def random_statement(r, fronts, deep):
    """a statement of at most so many fronts"""
    ways = ["SEND", "RECV"] * 3 + ["SKIP"] + (["SEL"] * 12 + ["IF"] if fronts > 1 else [])
    name = r.choice(ways + (["GUARD", "SEQ"] if deep else []))
    if name == "SKIP": return SKIP
    if name == "SEND": return SEND(r.randrange(4), r.choice([0, 0, 0, 1]), *r.choice([()] * 8 + [(INT(1),), (YES,), (VAR(2),)]))
    if name == "RECV": return RECV(r.randrange(4), r.choice([0, 0, 0, 1]), *r.choice([()] * 8 + [(0,), (1,), (2,)]))
    if name == "IF": return ("IF", r.choice([YES, NO, UNK]), SKIP, SKIP)
    if name == "GUARD": return GUARD(r.choice([YES, YES, NO, UNK]), random_statement(r, fronts, deep - 1))
    if name == "SEQ": return ("SEQ", random_statement(r, fronts, deep - 1), SKIP)
    k = r.randrange(1, fronts)
    return ("SEL", random_statement(r, k, deep), random_statement(r, fronts - k, deep))

def random_behaviour(r, processes, classes, deep):
    if deep and r.random() < 0.4:
        b = random_behaviour(r, processes, classes, deep - 1)
        if r.random() < 0.4: return HIDE(*r.sample(range(4), r.choice([1, 1, 2])))(b)
        return RENAME(r.randrange(4), r.randrange(4))(b)
    if processes == 1: return P[r.randrange(classes)]
    k = r.randrange(1, processes)
    return PAR(random_behaviour(r, k, classes, deep), random_behaviour(r, processes - k, classes, deep))

def random_models(n):
    """n admitted files, always the same ones"""
    r, found = random.Random(8), []
    while len(found) < n:
        classes = r.randint(1, 4)
        data = model(random_behaviour(r, r.randint(1, 8), classes, 3), *[random_statement(r, r.randint(1, 8), 3) for _ in range(classes)])
        if fault_of(data) is None: found.append(data)
    return found

# ---------------------------------------------------------------- printing

def hold():
    """every answer of the table against the rules, and both statements of the rules against each other"""
    for what, data, want in TABLE:
        got = shell_steps(hexs(data).split())
        if got != want: sys.exit("%s: written %s, found %s" % (what, want, got))
    names = [what for what, _, _ in TABLE]
    assert len(set(names)) == len(names), [n for n in names if names.count(n) > 1]
    for data in [d for _, d, want in TABLE if want[0].startswith("listed")] + random_models(400):
        one, two = steps(Model(check(data))), steps_by_paths(check(data))
        if one != two: sys.exit("%s: %s, by paths %s" % (hexs(data), one, two))

def line(data): return ("steps " + hexs(data)).strip()

if __name__ == "__main__":
    hold()
    what = sys.argv[1] if sys.argv[1:] else "table"
    if what == "table":
        for name, data, want in TABLE:
            print("# %s, expected: %s" % (name, "; ".join(want) if len(want) < 20 else want[0]))
            print(line(data))
    elif what == "answers":
        for _, _, want in TABLE: print("\n".join(want))
    else:
        for data in random_models(int(sys.argv[2])):
            print(line(data) if what == "random" else "\n".join(shell_steps(hexs(data).split())))
