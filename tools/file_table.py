#!/usr/bin/env python3
"""Model files for the shell's `check`, each with the answer it must get.

`python3 tools/file_table.py` prints, for every file of the table, a comment line
with the answer and a line `check HEX`. The answers are written in the table by
hand, worked out from the rules; the script holds each one to tools/oracle.py.

    python3 tools/file_table.py           the table
    python3 tools/file_table.py samples   examples/samples.txt
    python3 tools/file_table.py example   examples/build-site.txt
    python3 tools/file_table.py report    number of files, pairs of fault and layer
"""
import sys
sys.dont_write_bytecode = True
from oracle import *
from check_docs import SITE, A, nots, sel, full_house, guard_unknown

TABLE = []

def OK(classes, processes): return ("admitted", classes, processes)
def NO(number, place, layer): return ("refused", number, place, layer)

def T(what, data, want):
    TABLE.append((what, bytes(data), want))

def text_of(want):
    if want[0] == "admitted": return "admitted classes %d processes %d" % want[1:]
    return "refused %d place %d layer %d" % want[1:]

# ---------------------------------------------------------------- builders

def put(b, *pairs):
    """b with bytes changed: put(b, place, byte, place, byte, ...)"""
    b = bytearray(b)
    for at, x in zip(pairs[::2], pairs[1::2]): b[at] = x
    return bytes(b)

def one(s, vs=(), ds=(), beh=("PROC", 0)):
    """one class; its statement starts at 8 + 6 * variables + 8 * declarations"""
    return enc_file([(list(vs), list(ds), s)], beh)

def raw(cls, tail="40 00"):
    """one class with exactly these bytes behind its length, at place 6"""
    c = unhex(cls)
    return unhex("50 53 01 01") + len(c).to_bytes(2, "little") + c + unhex(tail)

def beh(tail): return raw("00 00 20", tail)          # one class of SKIP; the behaviour starts at 9

def left(name, parts):
    t = parts[0]
    for p in parts[1:]: t = (name, t, p)
    return t

def right(name, parts):
    t = parts[-1]
    for p in reversed(parts[:-1]): t = (name, p, t)
    return t

def even(name, parts):
    """a tree as flat as it can be"""
    if len(parts) == 1: return parts[0]
    h = len(parts) // 2
    return (name, even(name, parts[:h]), even(name, parts[h:]))

def over(n, wrap, t):
    for _ in range(n): t = wrap(t)
    return t

SKIP = ("SKIP",)
TRUE_, UNK = ("BOOL", 1), ("BOOL", 2)
IUNK = ("IUNK",)
PLAIN = one(SKIP)                                     # 11 bytes: class 6 to 8, behaviour at 9
IB = [(I, 5), (B, 1)]                                 # one Integer, one Boolean: the statement is at 20

# ---------------------------------------------------------------- samples

T("sample A: one meeting", A, OK(2, 2))
T("sample B: A with byte 55 made 00", put(A, 55, 0), OK(2, 2))
T("sample C: A without its last byte", A[:-1], NO(4, 64, 5))
T("sample D: A with byte 27 made 01, an absent variable", put(A, 27, 1), NO(6, 26, 4))
T("sample E: A with byte 24 made 03, not declared", put(A, 24, 3), NO(8, 22, 3))
T("sample G: GUARD with an unknown guard", guard_unknown(), OK(1, 1))
T("sample H: 30 NOTs, BOOL at depth 32", nots(30), OK(1, 1))
T("sample H: 31 NOTs, BOOL at depth 33", nots(31), NO(5, 47, 4))
T("sample I: eight SKIPs", sel(8), OK(1, 1))
T("sample I: nine SKIPs nested to the right", sel(9), NO(9, 8, 3))
T("the small build site", SITE, OK(2, 3))
T("the small build site with byte 141 made 90, a wrong place in PAR", put(SITE, 141, 0x90), NO(4, 140, 5))
T("the same, and its first part of an absent class: the part first", put(SITE, 141, 0x90, 144, 7), NO(6, 143, 5))
T("the same, and its second part wrong: the place first", put(SITE, 141, 0x90, 146, 99), NO(4, 140, 5))
T("four senders and four receivers with eight fronts each", full_house(), OK(2, 8))

# ---------------------------------------------------------------- length and header

T("no byte at all", b"", NO(1, 0, 1))
T("length 3, a good beginning", unhex("50 53 01"), NO(1, 0, 1))
T("length 3, a wrong beginning: the length first", unhex("00 00 00"), NO(1, 0, 1))
T("length 4, one class announced and absent", unhex("50 53 01 01"), NO(3, 4, 2))
T("length 4, 0 classes", unhex("50 53 01 00"), NO(2, 3, 1))
T("length 4, all zero", unhex("00 00 00 00"), NO(2, 0, 1))
T("A with byte 0 made 51", put(A, 0, 0x51), NO(2, 0, 1))
T("A with byte 1 made 52", put(A, 1, 0x52), NO(2, 1, 1))
T("A with byte 2 made 00", put(A, 2, 0), NO(2, 2, 1))
T("A with byte 2 made 02", put(A, 2, 2), NO(2, 2, 1))
T("A with bytes 0, 1, 2 and 3 wrong: the first", put(A, 0, 1, 1, 1, 2, 9, 3, 9), NO(2, 0, 1))
T("A with bytes 1 and 3 wrong: the first", put(A, 1, 0, 3, 0), NO(2, 1, 1))
T("A with bytes 2 and 3 wrong: the first", put(A, 2, 0xFF, 3, 0), NO(2, 2, 1))
T("A with 0 classes", put(A, 3, 0), NO(2, 3, 1))
T("A with FF classes", put(A, 3, 0xFF), NO(2, 3, 1))
T("eight classes, a process of the last", enc_file([([], [], SKIP)] * 8, ("PROC", 7)), OK(8, 1))
T("eight classes, a process of each",
  enc_file([([], [], SKIP)] * 8, right("PAR", [("PROC", k) for k in range(8)])), OK(8, 8))
T("nine classes", enc_file([([], [], SKIP)] * 9, ("PROC", 0)), NO(2, 3, 1))
T("two classes announced and one there: the behaviour is taken for a length", put(PLAIN, 3, 2), NO(3, 9, 2))
T("one class announced and two there: a length where the behaviour is awaited",
  put(enc_file([([], [], SKIP)] * 2, ("PROC", 0)), 3, 1), NO(4, 9, 5))

# ---------------------------------------------------------------- class lengths

T("class length cut after one byte", unhex("50 53 01 01 03"), NO(3, 4, 2))
T("nothing behind the class length", unhex("50 53 01 01 03 00"), NO(3, 4, 2))
T("class length that overruns the file by one", put(PLAIN, 4, 6), NO(3, 4, 2))
T("class length up to the file's end: the behaviour is left over in the class", put(PLAIN, 4, 5), NO(4, 9, 3))
T("class length one too long: a byte left over in the class", put(PLAIN, 4, 4), NO(4, 9, 3))
T("class length one too short: no statement", put(PLAIN, 4, 2), NO(4, 8, 3))
T("class length FFFF", put(PLAIN, 4, 0xFF, 5, 0xFF), NO(3, 4, 2))
T("class length 0103, wrong in its high byte", put(PLAIN, 5, 1), NO(3, 4, 2))
T("class length 1: no count of declarations", put(PLAIN, 4, 1), NO(3, 7, 2))
T("class length 0, an empty class", put(PLAIN, 4, 0), NO(3, 6, 2))
T("an empty class at the file's end", unhex("50 53 01 01 00 00"), NO(3, 6, 2))
T("a class of head only", raw("00 00"), NO(4, 8, 3))
T("a class of head only at the file's end", raw("00 00", ""), NO(4, 8, 3))
T("second class length absent", put(PLAIN, 3, 2)[:9], NO(3, 9, 2))
T("second class length cut after one byte", put(PLAIN, 3, 2)[:10], NO(3, 9, 2))
T("A, second class overruns the file by one", put(A, 28, 0x25), NO(3, 28, 2))
T("A, second class up to the file's end", put(A, 28, 0x24), NO(4, 54, 3))
T("A, second class FFFF", put(A, 28, 0xFF, 29, 0xFF), NO(3, 28, 2))
T("A, second class one too long", put(A, 28, 0x19), NO(4, 54, 3))
T("A, second class one too short: RECV cut", put(A, 28, 0x17), NO(4, 46, 3))
T("A, first class one too short: VAR cut", put(A, 4, 0x15), NO(4, 26, 4))
T("A, first class two too short: no expression", put(A, 4, 0x14), NO(4, 26, 4))
T("A, first class three too short: SEND cut", put(A, 4, 0x13), NO(4, 22, 3))
T("A, a fault in the first class and FFFF for the second: the first class first",
  put(A, 22, 0x7F, 28, 0xFF, 29, 0xFF), NO(4, 22, 3))
T("A, the first class good, FFFF for the second, a bad behaviour", put(A, 28, 0xFF, 29, 0xFF, 54, 0), NO(3, 28, 2))

# ---------------------------------------------------------------- variables

T("eight variables, the last one set", one(("SET", 7, IUNK), [(I, k) for k in range(8)]), OK(1, 1))
T("nine variables", one(SKIP, [(I, 0)] * 9), NO(3, 6, 2))
T("count of variables FF", put(PLAIN, 6, 0xFF), NO(3, 6, 2))
T("variable of kind 0", raw("01 00 01 00 00 00 00 00 20"), NO(3, 7, 2))
T("variable of kind 3", raw("01 03 01 00 00 00 00 00 20"), NO(3, 7, 2))
T("known 2", raw("01 01 02 00 00 00 00 00 20"), NO(3, 8, 2))
T("kind 3 and known 2: the kind first", raw("01 03 02 00 00 00 00 00 20"), NO(3, 7, 2))
T("Boolean start values 0 and 1", one(SKIP, [(B, 0), (B, 1)]), OK(1, 1))
T("Boolean start value 2", raw("01 02 01 02 00 00 00 00 20"), NO(3, 9, 2))
T("Boolean start value 256", raw("01 02 01 00 01 00 00 00 20"), NO(3, 9, 2))
T("Boolean start value with the high byte 80", raw("01 02 01 01 00 00 80 00 20"), NO(3, 9, 2))
T("unknown Integer with start value 1", raw("01 01 00 01 00 00 00 00 20"), NO(3, 9, 2))
T("unknown Integer with start value 80 in the high byte", raw("01 01 00 00 00 00 80 00 20"), NO(3, 9, 2))
T("unknown Boolean with start value 1", raw("01 02 00 01 00 00 00 00 20"), NO(3, 9, 2))
T("Integers -1, least and greatest", one(SKIP, [(I, -1), (I, LO), (I, HI)]), OK(1, 1))
T("second variable of kind 0", raw("02 01 00 00 00 00 00 00 00 00 00 00 00 00 20"), NO(3, 13, 2))
T("head cut before the kind", raw("01"), NO(3, 7, 2))
T("head cut before known", raw("01 01"), NO(3, 8, 2))
T("head cut before the start value", raw("01 01 01"), NO(3, 9, 2))
T("head cut in the start value, though bytes follow the class", raw("01 01 01 00 00 00", "40 00"), NO(3, 9, 2))
T("head cut behind the variables", raw("01 01 01 00 00 00 00"), NO(3, 13, 2))
T("eight variables announced and seven there: the count of declarations is taken for a kind",
  put(one(SKIP, [(I, 0)] * 7), 6, 8), NO(3, 49, 2))

# ---------------------------------------------------------------- declarations

T("sixteen declarations", one(SKIP, (), [(0, c, 0, ()) for c in range(16)]), OK(1, 1))
T("seventeen declarations", one(SKIP, (), [(0, c, 0, ()) for c in range(17)]), NO(3, 7, 2))
T("nine variables and seventeen declarations: the variables first",
  one(SKIP, [(I, 0)] * 9, [(0, 0, 0, ())] * 17), NO(3, 6, 2))
T("two declarations alike", one(SKIP, (), [(1, 3, 4, (I,))] * 2), OK(1, 1))
T("declaration of channel 31, message 254, four kinds", one(SKIP, (), [(1, 31, 254, (I, B, B, I))]), OK(1, 1))
T("direction 2", raw("00 01 02 00 00 00 00 00 00 00 20"), NO(3, 8, 2))
T("channel 32 declared", raw("00 01 00 20 00 00 00 00 00 00 20"), NO(3, 9, 2))
T("message 255 declared", raw("00 01 00 00 FF 00 00 00 00 00 20"), NO(3, 10, 2))
T("5 values declared", raw("00 01 00 00 00 05 01 01 01 01 20"), NO(3, 11, 2))
T("channel 32, message 255 and 5 values: the channel first", raw("00 01 00 20 FF 05 01 01 01 01 20"), NO(3, 9, 2))
T("a missing kind, the only one", raw("00 01 00 00 00 01 00 00 00 00 20"), NO(3, 12, 2))
T("a missing kind, the second of two", raw("00 01 00 00 00 02 01 00 00 00 20"), NO(3, 13, 2))
T("a missing kind, the fourth of four", raw("00 01 00 00 00 04 01 02 01 00 20"), NO(3, 15, 2))
T("kind 3", raw("00 01 00 00 00 01 03 00 00 00 20"), NO(3, 12, 2))
T("kind 3 where unused", raw("00 01 00 00 00 01 01 00 03 00 20"), NO(3, 14, 2))
T("a kind where unused, no values", raw("00 01 00 00 00 00 01 00 00 00 20"), NO(3, 12, 2))
T("a kind where unused, behind one value", raw("00 01 00 00 00 01 01 01 00 00 20"), NO(3, 13, 2))
T("a kind where unused, behind three values", raw("00 01 00 00 00 03 01 02 01 02 20"), NO(3, 15, 2))
T("head cut before the direction", raw("00 01"), NO(3, 8, 2))
T("head cut before the number of values", raw("00 01 00 00 00"), NO(3, 11, 2))
T("head cut before the fourth kind", raw("00 01 00 00 00 00 00 00 00"), NO(3, 15, 2))
T("a kind where unused and the head cut behind it: the kind first", raw("00 01 00 00 00 00 01"), NO(3, 12, 2))
T("one declaration too many announced: SKIP is taken for a direction",
  raw("00 02 00 00 00 00 00 00 00 00 20"), NO(3, 16, 2))
T("one declaration too few announced: a direction where the statement is awaited",
  raw("00 00 00 00 00 00 00 00 00 00 20"), NO(4, 8, 3))

# ---------------------------------------------------------------- fault 4 where a statement is awaited or at one

T("byte 1F where a statement is awaited", raw("00 00 1F"), NO(4, 8, 3))
T("byte 29 where a statement is awaited", raw("00 00 29"), NO(4, 8, 3))
T("an expression where a statement is awaited", raw("00 00 02 01"), NO(4, 8, 3))
T("a behaviour where a statement is awaited", raw("00 00 40 00"), NO(4, 8, 3))
T("SET cut before its operand", raw("00 00 21"), NO(4, 8, 3))
T("SEND cut in its operands", raw("00 00 22 00 00"), NO(4, 8, 3))
T("RECV cut by one byte", raw("00 00 23 00 00 00 FF FF FF"), NO(4, 8, 3))
T("SEQ cut in its place", raw("00 00 24 0C"), NO(4, 8, 3))
T("IF cut behind its first place", raw("00 00 27 0F 00"), NO(4, 8, 3))
T("SEQ of two SKIPs", raw("00 00 24 0C 00 20 20"), OK(1, 1))
T("SEQ, place one too high", raw("00 00 24 0D 00 20 20"), NO(4, 8, 3))
T("SEQ, place one too low", raw("00 00 24 0B 00 20 20"), NO(4, 8, 3))
T("SEQ, place FFFF", raw("00 00 24 FF FF 20 20"), NO(4, 8, 3))
T("SEQ, place 010C, wrong in its high byte", raw("00 00 24 0C 01 20 20"), NO(4, 8, 3))
T("SEQ, place counted from the class's first byte", raw("00 00 24 06 00 20 20"), NO(4, 8, 3))
T("SEQ, place high byte first", raw("00 00 24 00 0C 20 20"), NO(4, 8, 3))
T("SEQ, a wrong place and no first part: the part first", raw("00 00 24 FF FF"), NO(4, 11, 3))
T("SEQ, a wrong place and no second part: the place first", raw("00 00 24 FF FF 20"), NO(4, 8, 3))
T("SEQ without its second part", raw("00 00 24 0C 00 20"), NO(4, 12, 3))
T("SEQ in SEQ, the inner place wrong", raw("00 00 24 0C 00 20 24 0F 00 20 20"), NO(4, 12, 3))
T("SEL, place one too high", raw("00 00 25 0D 00 20 20"), NO(4, 8, 3))
T("GUARD, place one too high", raw("00 00 26 0E 00 02 01 20"), NO(4, 8, 3))
T("GUARD without its statement", raw("00 00 26 0D 00 02 01"), NO(4, 13, 3))
T("GUARD with an expression for its statement", raw("00 00 26 0D 00 02 01 02 01"), NO(4, 13, 3))
T("DO, place one too low", raw("00 00 28 0C 00 02 01 20"), NO(4, 8, 3))
T("DO, place FFFF", raw("00 00 28 FF FF 02 01 20"), NO(4, 8, 3))
T("IF over two SKIPs", raw("00 00 27 0F 00 10 00 02 01 20 20"), OK(1, 1))
T("IF, first place one too high", raw("00 00 27 10 00 10 00 02 01 20 20"), NO(4, 8, 3))
T("IF, first place FFFF", raw("00 00 27 FF FF 10 00 02 01 20 20"), NO(4, 8, 3))
T("IF, second place one too high", raw("00 00 27 0F 00 11 00 02 01 20 20"), NO(4, 8, 3))
T("IF, second place one too low", raw("00 00 27 0F 00 0F 00 02 01 20 20"), NO(4, 8, 3))
T("IF, second place FFFF", raw("00 00 27 0F 00 FF FF 02 01 20 20"), NO(4, 8, 3))
T("IF, places swapped", raw("00 00 27 10 00 0F 00 02 01 20 20"), NO(4, 8, 3))
T("IF, first place wrong and second part wrong: the place first", raw("00 00 27 10 00 10 00 02 01 7F 20"), NO(4, 8, 3))
T("IF, second place wrong and second part wrong: the part first", raw("00 00 27 0F 00 11 00 02 01 7F 20"), NO(4, 15, 3))
T("IF, second place wrong and third part wrong: the place first", raw("00 00 27 0F 00 11 00 02 01 20 7F"), NO(4, 8, 3))
T("IF without its third part", raw("00 00 27 0F 00 10 00 02 01 20"), NO(4, 16, 3))
T("a byte left over behind SKIP", raw("00 00 20 00"), NO(4, 9, 3))
T("a second statement left over behind SKIP", raw("00 00 20 20"), NO(4, 9, 3))

# ---------------------------------------------------------------- fault 4 where an expression is awaited or at one
# one Integer variable, unknown: the statement SET is at 14, its expression at 16

V1 = "01 01 00 00 00 00 00 00 "

T("SET without its expression", raw(V1 + "21 00"), NO(4, 16, 4))
T("byte 00 where an expression is awaited", raw(V1 + "21 00 00"), NO(4, 16, 4))
T("byte 0E where an expression is awaited", raw(V1 + "21 00 0E"), NO(4, 16, 4))
T("a statement where an expression is awaited", raw(V1 + "21 00 20"), NO(4, 16, 4))
T("a behaviour where an expression is awaited", raw(V1 + "21 00 40 00"), NO(4, 16, 4))
T("INT cut by one byte, though bytes follow the class", raw(V1 + "21 00 01 00 00 00"), NO(4, 16, 4))
T("BOOL cut", raw(V1 + "21 00 02"), NO(4, 16, 4))
T("VAR cut", raw(V1 + "21 00 04"), NO(4, 16, 4))
T("ADD cut in its place", raw(V1 + "21 00 05 14"), NO(4, 16, 4))
T("ADD of two unknown Integers", raw(V1 + "21 00 05 14 00 03 03"), OK(1, 1))
T("ADD, place one too high", raw(V1 + "21 00 05 15 00 03 03"), NO(4, 16, 4))
T("ADD, place one too low", raw(V1 + "21 00 05 13 00 03 03"), NO(4, 16, 4))
T("ADD, place FFFF", raw(V1 + "21 00 05 FF FF 03 03"), NO(4, 16, 4))
T("ADD without its first part", raw(V1 + "21 00 05 14 00"), NO(4, 19, 4))
T("ADD without its second part", raw(V1 + "21 00 05 14 00 03"), NO(4, 20, 4))
T("MUL in SUB, the inner place wrong", raw(V1 + "21 00 06 14 00 03 07 17 00 03 03"), NO(4, 20, 4))
T("SAME, place one too high, in GUARD", raw("00 00 26 10 00 0A 10 00 03 03 20"), NO(4, 11, 4))
T("NOT without its part, in GUARD", raw("00 00 26 0D 00 0D"), NO(4, 12, 4))
T("GUARD without its expression", raw("00 00 26 0D 00"), NO(4, 11, 4))
T("IF with a statement for its expression", raw("00 00 27 0E 00 0F 00 20 20 20"), NO(4, 13, 4))
T("SEND of two values with one expression: the end where the second is awaited",
  raw("00 01 00 00 00 02 01 01 00 00 22 00 00 02 03"), NO(4, 21, 4))
T("a byte left over behind SET is a fault of the statement", raw(V1 + "21 00 03 03"), NO(4, 17, 3))

# ---------------------------------------------------------------- fault 4 where a behaviour is awaited or at one

T("the file ends where the behaviour should begin", beh(""), NO(4, 9, 5))
T("byte 3F for the behaviour", beh("3F"), NO(4, 9, 5))
T("byte 44 for the behaviour", beh("44 00"), NO(4, 9, 5))
T("a statement for the behaviour", beh("20"), NO(4, 9, 5))
T("an expression for the behaviour", beh("02 01"), NO(4, 9, 5))
T("PROC cut", beh("40"), NO(4, 9, 5))
T("PAR cut", beh("41 0E"), NO(4, 9, 5))
T("HIDE cut by one byte", beh("42 00 00 00"), NO(4, 9, 5))
T("RENAME cut", beh("43 00"), NO(4, 9, 5))
T("HIDE without its part", beh("42 02 00 00 00"), NO(4, 14, 5))
T("RENAME without its part", beh("43 00 01"), NO(4, 12, 5))
T("PAR of two processes", beh("41 0E 00 40 00 40 00"), OK(1, 2))
T("PAR, place one too high", beh("41 0F 00 40 00 40 00"), NO(4, 9, 5))
T("PAR, place one too low", beh("41 0D 00 40 00 40 00"), NO(4, 9, 5))
T("PAR, place FFFF", beh("41 FF FF 40 00 40 00"), NO(4, 9, 5))
T("PAR, a wrong place and no second part: the place first", beh("41 FF FF 40 00"), NO(4, 9, 5))
T("PAR without its first part", beh("41 0E 00"), NO(4, 12, 5))
T("PAR without its second part", beh("41 0E 00 40 00"), NO(4, 14, 5))
T("PAR in HIDE, place counted without the HIDE", beh("42 00 00 00 00 41 0E 00 40 00 40 00"), NO(4, 14, 5))
T("a byte left over behind the behaviour", beh("40 00 00"), NO(4, 11, 5))
T("a second PROC left over behind the behaviour", beh("40 00 40 00"), NO(4, 11, 5))
T("A with a byte left over", A + b"\x00", NO(4, 66, 5))

# ---------------------------------------------------------------- depth

SEQ32 = over(32, lambda t: ("SEQ", t, SKIP), SKIP)
T("30 ADDs nested left: the innermost parts at depth 32",
  one(("SET", 0, left("ADD", [IUNK] * 31)), [(I, 0)]), OK(1, 1))
T("31 ADDs nested left: the innermost first part is at depth 33",
  one(("SET", 0, left("ADD", [IUNK] * 32)), [(I, 0)]), NO(5, 109, 4))
T("31 ADDs nested right: the last ADD's first part is at depth 33",
  one(("SET", 0, right("ADD", [IUNK] * 32)), [(I, 0)]), NO(5, 139, 4))
T("31 SEQs nested right: SKIPs at depth 32", one(right("SEQ", [SKIP] * 32)), OK(1, 1))
T("32 SEQs nested right: the last SEQ's first SKIP is at depth 33", one(right("SEQ", [SKIP] * 33)), NO(5, 135, 3))
T("31 SEQs nested left: SKIP at depth 32", one(left("SEQ", [SKIP] * 32)), OK(1, 1))
T("32 SEQs nested left: the innermost SKIP is at depth 33", one(SEQ32), NO(5, 104, 3))
T("31 GUARDs: BOOL and SKIP at depth 32", one(over(31, lambda t: ("GUARD", TRUE_, t), SKIP)), OK(1, 1))
T("32 GUARDs: the innermost BOOL is at depth 33", one(over(32, lambda t: ("GUARD", TRUE_, t), SKIP)), NO(5, 166, 4))
T("31 DOs: BOOL and SKIP at depth 32", one(over(31, lambda t: ("DO", TRUE_, t), SKIP)), OK(1, 1))
T("31 IFs nested in their third part", one(over(31, lambda t: ("IF", UNK, SKIP, t), SKIP)), OK(1, 1))
T("32 IFs nested in their third part: the innermost BOOL is at depth 33",
  one(over(32, lambda t: ("IF", UNK, SKIP, t), SKIP)), NO(5, 261, 4))
T("SEND at depth 31, its value at depth 32",
  one(over(30, lambda t: ("SEQ", SKIP, t), ("SEND", 0, 0, [IUNK])), (), [(0, 0, 0, (I,))]), OK(1, 1))
T("SEND at depth 32, its value at depth 33",
  one(over(31, lambda t: ("SEQ", SKIP, t), ("SEND", 0, 0, [IUNK])), (), [(0, 0, 0, (I,))]), NO(5, 144, 4))
T("31 HIDEs: PROC at depth 32", one(SKIP, beh=over(31, lambda t: ("HIDE", [0], t), ("PROC", 0))), OK(1, 1))
T("32 HIDEs: PROC at depth 33", one(SKIP, beh=over(32, lambda t: ("HIDE", [0], t), ("PROC", 0))), NO(5, 169, 5))
T("31 RENAMEs: PROC at depth 32", one(SKIP, beh=over(31, lambda t: ("RENAME", 0, 1, t), ("PROC", 0))), OK(1, 1))
T("32 RENAMEs: PROC at depth 33", one(SKIP, beh=over(32, lambda t: ("RENAME", 0, 1, t), ("PROC", 0))), NO(5, 105, 5))
T("24 RENAMEs over 7 PARs nested left: PROC at depth 32",
  one(SKIP, beh=over(24, lambda t: ("RENAME", 0, 1, t), left("PAR", [("PROC", 0)] * 8))), OK(1, 8))
T("24 RENAMEs over 8 PARs nested left: the first PROC is at depth 33, before the ninth is seen",
  one(SKIP, beh=over(24, lambda t: ("RENAME", 0, 1, t), left("PAR", [("PROC", 0)] * 9))), NO(5, 105, 5))
T("an unknown byte at depth 33: not a command first", put(nots(31), 47, 0x7F), NO(4, 47, 4))
T("a cut BOOL at depth 33: cut first", put(nots(31), 4, 0x2A), NO(4, 47, 4))
T("an unknown byte at depth 33 for a statement", put(one(SEQ32), 104, 0x29), NO(4, 104, 3))
T("an unknown byte at depth 33 for a behaviour",
  put(one(SKIP, beh=over(32, lambda t: ("RENAME", 0, 1, t), ("PROC", 0))), 105, 0x20), NO(4, 105, 5))
T("BOOL 3 at depth 33: the depth first", put(nots(31), 48, 3), NO(5, 47, 4))
T("BOOL 3 at depth 32", put(nots(30), 47, 3), NO(6, 46, 4))
T("SET of an absent variable at depth 33: the depth first",
  one(over(32, lambda t: ("SEQ", t, SKIP), ("SET", 0, IUNK))), NO(5, 104, 3))
T("PROC of an absent class at depth 33: the depth first",
  one(SKIP, beh=over(32, lambda t: ("RENAME", 0, 1, t), ("PROC", 9))), NO(5, 105, 5))
T("a ninth PROC at depth 33: the depth first",
  one(SKIP, beh=("PAR", left("PAR", [("PROC", 0)] * 8), over(31, lambda t: ("RENAME", 0, 1, t), ("PROC", 0)))),
  NO(5, 142, 5))
T("a part of the wrong kind at depth 33: the depth first",
  one(("SET", 0, over(31, lambda t: ("NOT", t), IUNK)), [(B, None)]), NO(5, 47, 4))
T("a part of the wrong kind at depth 32",
  one(("SET", 0, over(30, lambda t: ("NOT", t), IUNK)), [(B, None)]), NO(7, 46, 4))

# ---------------------------------------------------------------- fronts

def skips(n): return right("SEL", [SKIP] * n)
IFU = ("IF", UNK, SKIP, SKIP)                         # 11 bytes
DOU = ("DO", UNK, SKIP)                               # 6 bytes

T("eight SKIPs nested to the left", one(left("SEL", [SKIP] * 8)), OK(1, 1))
T("nine SKIPs nested to the left", one(left("SEL", [SKIP] * 9)), NO(9, 8, 3))
T("ten SKIPs nested to the left: the inner SEL is named", one(left("SEL", [SKIP] * 10)), NO(9, 11, 3))
T("ten SKIPs nested to the right: the inner SEL is named", one(skips(10)), NO(9, 12, 3))
T("SEL of four and four", one(("SEL", skips(4), skips(4))), OK(1, 1))
T("SEL of four and five", one(("SEL", skips(4), skips(5))), NO(9, 8, 3))
T("SEL of eight and one", one(("SEL", skips(8), SKIP)), NO(9, 8, 3))
T("SEL of SET and nine: the inner SEL is named", one(("SEL", ("SET", 0, IUNK), skips(9)), [(I, 0)]), NO(9, 20, 3))
T("SEL of SKIP, and SEQ of SKIP and then eight, counts two", one(("SEL", SKIP, ("SEQ", SKIP, skips(8)))), OK(1, 1))
T("four IFs", one(right("SEL", [IFU] * 4)), OK(1, 1))
T("four IFs and a SKIP", one(right("SEL", [IFU] * 4 + [SKIP])), NO(9, 8, 3))
T("four DOs", one(left("SEL", [DOU] * 4)), OK(1, 1))
T("five DOs", one(left("SEL", [DOU] * 5)), NO(9, 8, 3))
T("IF over eight and eight counts two: with six SKIPs eight",
  one(right("SEL", [("IF", UNK, skips(8), skips(8))] + [SKIP] * 6)), OK(1, 1))
T("IF over nine: the SEL inside is named", one(("IF", UNK, SKIP, skips(9))), NO(9, 16, 3))
T("SEQ of eight, then eight, counts eight", one(("SEQ", skips(8), skips(8))), OK(1, 1))
T("SEQ whose second part has nine", one(("SEQ", SKIP, skips(9))), NO(9, 12, 3))
T("SEL of SEQ over eight, and SKIP", one(("SEL", ("SEQ", skips(8), SKIP), SKIP)), NO(9, 8, 3))
T("GUARD over eight", one(("GUARD", UNK, skips(8))), OK(1, 1))
T("GUARD that is never true over nine", one(("GUARD", ("BOOL", 0), skips(9))), NO(9, 13, 3))
T("SEL of GUARD over eight, and SKIP: guards do not lessen it",
  one(("SEL", ("GUARD", ("BOOL", 0), skips(8)), SKIP)), NO(9, 8, 3))
T("nine SKIPs and a wrong place in the outermost SEL: the place first", put(sel(9), 9, 0x0D), NO(4, 8, 3))
T("nine SKIPs and a byte left over: the fronts first",
  raw(hexs(sel(9)[6:-2]) + " 20"), NO(9, 8, 3))
T("nine fronts in the second class",
  enc_file([([], [], skips(8)), ([], [], skips(9))], ("PROC", 0)), NO(9, 41, 3))

# ---------------------------------------------------------------- processes

P0 = ("PROC", 0)
T("eight processes nested left", one(SKIP, beh=left("PAR", [P0] * 8)), OK(1, 8))
T("eight processes nested right", one(SKIP, beh=right("PAR", [P0] * 8)), OK(1, 8))
T("nine processes nested left", one(SKIP, beh=left("PAR", [P0] * 9)), NO(10, 49, 5))
T("nine processes nested right", one(SKIP, beh=right("PAR", [P0] * 9)), NO(10, 49, 5))
T("ten processes: the ninth is named", one(SKIP, beh=right("PAR", [P0] * 10)), NO(10, 52, 5))
T("a ninth process under HIDE", one(SKIP, beh=("PAR", left("PAR", [P0] * 8), ("HIDE", [1], P0))), NO(10, 54, 5))
T("a ninth process of an absent class: the class first",
  one(SKIP, beh=left("PAR", [P0] * 8 + [("PROC", 1)])), NO(6, 49, 5))
T("nine processes and a wrong place in the outermost PAR, seen before the ninth",
  put(one(SKIP, beh=left("PAR", [P0] * 9)), 10, 0x30), NO(4, 9, 5))
T("a cut ninth process: cut first", one(SKIP, beh=left("PAR", [P0] * 9))[:-1], NO(4, 49, 5))

# ---------------------------------------------------------------- operands

T("SET where the class has no variables", one(("SET", 0, IUNK)), NO(6, 8, 3))
T("SET of variable 1 of one", one(("SET", 1, IUNK), [(I, 0)]), NO(6, 14, 3))
T("SET of variable FF", one(("SET", 255, IUNK), [(I, 0)]), NO(6, 14, 3))
T("SET of an absent variable and no expression: the variable first", raw("00 00 21 00"), NO(6, 8, 3))
T("VAR where the class has no variables", one(("GUARD", ("VAR", 0), SKIP)), NO(6, 11, 4))
T("VAR 8 of eight", one(("SET", 0, ("VAR", 8)), [(I, 0)] * 8), NO(6, 58, 4))
T("VAR FF", put(A, 27, 0xFF), NO(6, 26, 4))
T("BOOL 3", one(("GUARD", ("BOOL", 3), SKIP)), NO(6, 11, 4))
T("BOOL FF", one(("GUARD", ("BOOL", 255), SKIP)), NO(6, 11, 4))
T("BOOL 3 and a wrong place behind it: the operand first", put(one(("GUARD", ("BOOL", 3), SKIP)), 9, 0xFF), NO(6, 11, 4))
T("INT FFFFFFFF", one(("SET", 0, ("INT", -1)), [(I, 0)]), OK(1, 1))
T("SEND on channel 32", put(A, 23, 32), NO(6, 22, 3))
T("SEND of message 255", put(A, 24, 255), NO(6, 22, 3))
T("SEND of count 5", put(A, 25, 5), NO(6, 22, 3))
T("SEND on channel 32 with an absent variable behind: the channel first", put(A, 23, 32, 27, 1), NO(6, 22, 3))
T("SEND on channel 31 of message 254 with four values",
  one(("SEND", 31, 254, [IUNK, UNK, IUNK, TRUE_]), (), [(0, 31, 254, (I, B, I, B))]), OK(1, 1))
T("RECV on channel 32", put(A, 47, 32), NO(6, 46, 3))
T("RECV of message 255", put(A, 48, 255), NO(6, 46, 3))
T("RECV of count 5", put(A, 49, 5), NO(6, 46, 3))
T("RECV into an absent variable", put(A, 50, 1), NO(6, 46, 3))
T("RECV with FF where used", put(A, 50, 0xFF), NO(6, 46, 3))
T("RECV with 00 where unused", put(A, 51, 0), NO(6, 46, 3))
T("RECV with FE in the last byte, unused", put(A, 53, 0xFE), NO(6, 46, 3))
T("RECV of count 0 with 00 in its first variable", one(("RECV", 0, 0, []), (), [(1, 0, 0, ())])[:20] +
  b"\x00" + one(("RECV", 0, 0, []), (), [(1, 0, 0, ())])[21:], NO(6, 16, 3))
T("RECV of count 0", one(("RECV", 0, 0, []), (), [(1, 0, 0, ())]), OK(1, 1))
T("RECV into four variables", one(("RECV", 31, 254, [3, 1, 0, 2]), [(I, 0), (B, 0), (B, 0), (I, 0)],
  [(1, 31, 254, (I, B, I, B))]), OK(1, 1))
T("RECV naming a variable twice", one(("RECV", 0, 0, [0, 0]), [(I, 0)] * 2, [(1, 0, 0, (I, I))]), NO(6, 28, 3))
T("RECV naming its first variable again as the fourth",
  one(("RECV", 0, 0, [0, 1, 2, 0]), [(I, 0)] * 3, [(1, 0, 0, (I,) * 4)]), NO(6, 34, 3))
T("RECV of count 2 with FF for the second",
  one(("RECV", 0, 0, [0, 255]), [(I, 0)] * 2, [(1, 0, 0, (I, I))]), NO(6, 28, 3))
T("RECV undeclared and on channel 32: the channel first", put(A, 47, 32, 48, 9), NO(6, 46, 3))
T("PROC of class 1 of one", beh("40 01"), NO(6, 9, 5))
T("PROC of class FF", beh("40 FF"), NO(6, 9, 5))
T("PROC of class 2 of two, in PAR", put(A, 65, 2), NO(6, 64, 5))
T("RENAME from 32", beh("43 20 00 40 00"), NO(6, 9, 5))
T("RENAME to 32", beh("43 00 20 40 00"), NO(6, 9, 5))
T("RENAME to FF", beh("43 00 FF 40 00"), NO(6, 9, 5))
T("RENAME to 32 without its part: the operand first", beh("43 00 20"), NO(6, 9, 5))
T("RENAME 31 to 31", beh("43 1F 1F 40 00"), OK(1, 1))
T("HIDE of bit 31", beh("42 00 00 00 80 40 00"), OK(1, 1))
T("HIDE of every channel", beh("42 FF FF FF FF 40 00"), OK(1, 1))

# ---------------------------------------------------------------- kinds
# one Integer and one Boolean variable: SET at 20, its expression at 22

T("SET of the Integer to BOOL", one(("SET", 0, TRUE_), IB), NO(7, 22, 4))
T("SET of the Boolean to IUNK", one(("SET", 1, IUNK), IB), NO(7, 22, 4))
T("SET of the Integer to the Boolean variable", one(("SET", 0, ("VAR", 1)), IB), NO(7, 22, 4))
T("SET of the Boolean to the Integer variable", one(("SET", 1, ("VAR", 0)), IB), NO(7, 22, 4))
T("SET of the Integer to LESS", one(("SET", 0, ("LESS", IUNK, IUNK)), IB), NO(7, 22, 4))
T("SET of the Boolean to DIV", one(("SET", 1, ("DIV", IUNK, IUNK)), IB), NO(7, 22, 4))
T("ADD, first part Boolean", one(("SET", 0, ("ADD", UNK, IUNK)), IB), NO(7, 25, 4))
T("ADD, second part Boolean", one(("SET", 0, ("ADD", IUNK, UNK)), IB), NO(7, 26, 4))
T("SUB, second part Boolean", one(("SET", 0, ("SUB", ("VAR", 0), ("VAR", 1))), IB), NO(7, 27, 4))
T("MUL, first part Boolean", one(("SET", 0, ("MUL", ("VAR", 1), ("VAR", 0))), IB), NO(7, 25, 4))
T("DIV, second part Boolean", one(("SET", 0, ("DIV", ("INT", 1), ("NOT", UNK))), IB), NO(7, 30, 4))
T("LESS, first part Boolean", one(("SET", 1, ("LESS", UNK, IUNK)), IB), NO(7, 25, 4))
T("LESS, second part Boolean", one(("SET", 1, ("LESS", IUNK, UNK)), IB), NO(7, 26, 4))
T("SAME of two Booleans", one(("SET", 1, ("SAME", UNK, ("VAR", 1))), IB), OK(1, 1))
T("SAME of two Integers", one(("SET", 1, ("SAME", IUNK, ("VAR", 0))), IB), OK(1, 1))
T("SAME, first an Integer, second a Boolean", one(("SET", 1, ("SAME", IUNK, UNK)), IB), NO(7, 26, 4))
T("SAME, first a Boolean, second an Integer", one(("SET", 1, ("SAME", UNK, IUNK)), IB), NO(7, 27, 4))
T("AND, first part an Integer", one(("SET", 1, ("AND", IUNK, UNK)), IB), NO(7, 25, 4))
T("AND, second part an Integer", one(("SET", 1, ("AND", UNK, IUNK)), IB), NO(7, 27, 4))
T("OR, first part an Integer", one(("SET", 1, ("OR", IUNK, UNK)), IB), NO(7, 25, 4))
T("OR, second part an Integer", one(("SET", 1, ("OR", UNK, IUNK)), IB), NO(7, 27, 4))
T("NOT of an Integer", one(("SET", 1, ("NOT", IUNK)), IB), NO(7, 23, 4))
T("GUARD of an Integer", one(("GUARD", IUNK, SKIP)), NO(7, 11, 4))
T("IF of an Integer", one(("IF", IUNK, SKIP, SKIP)), NO(7, 13, 4))
T("DO of an Integer", one(("DO", IUNK, SKIP)), NO(7, 11, 4))
T("SEND takes either kind", one(("SEND", 0, 0, [("VAR", 1), ("VAR", 0)]), IB, [(0, 0, 0, (B, I))]), OK(1, 1))
T("ADD, first part Boolean and place FFFF: the kind first",
  put(one(("SET", 0, ("ADD", UNK, IUNK)), IB), 23, 0xFF, 24, 0xFF), NO(7, 25, 4))
T("ADD, second part Boolean and place FFFF: the place first",
  put(one(("SET", 0, ("ADD", IUNK, UNK)), IB), 23, 0xFF, 24, 0xFF), NO(4, 22, 4))
T("GUARD of an Integer and a wrong place: the kind first", put(one(("GUARD", IUNK, SKIP)), 9, 0), NO(7, 11, 4))
T("IF of an Integer and both places wrong: the kind first", put(one(("IF", IUNK, SKIP, SKIP)), 9, 0, 11, 0), NO(7, 13, 4))
T("DO of an Integer and a wrong place: the kind first", put(one(("DO", IUNK, SKIP)), 9, 0), NO(7, 11, 4))
T("a wrong kind inside a part of the wrong kind: the inner one first",
  one(("SET", 0, ("NOT", IUNK)), IB), NO(7, 23, 4))
T("a wrong place inside a part of the wrong kind: the place first",
  put(one(("SET", 0, ("AND", UNK, UNK)), IB), 23, 0), NO(4, 22, 4))
T("GUARD of an Integer over an unknown statement: the kind first", put(one(("GUARD", IUNK, SKIP)), 12, 0x7F), NO(7, 11, 4))

# ---------------------------------------------------------------- declared or not

T("SEND undeclared by channel", put(A, 23, 2), NO(8, 22, 3))
T("SEND undeclared by message", put(A, 24, 1), NO(8, 22, 3))
T("SEND undeclared by count, one too few", one(("SEND", 1, 2, []), [(I, 7)], [(0, 1, 2, (I,))]), NO(8, 22, 3))
T("SEND undeclared by count, one too many",
  one(("SEND", 1, 2, [IUNK, IUNK]), [(I, 7)], [(0, 1, 2, (I,))]), NO(8, 22, 3))
T("SEND undeclared by kind", one(("SEND", 1, 2, [UNK]), [(I, 7)], [(0, 1, 2, (I,))]), NO(8, 22, 3))
T("SEND undeclared by the order of kinds", one(("SEND", 1, 2, [UNK, IUNK]), (), [(0, 1, 2, (I, B))]), NO(8, 16, 3))
T("SEND undeclared by direction", put(A, 14, 1), NO(8, 22, 3))
T("SEND where nothing is declared", one(("SEND", 0, 0, [])), NO(8, 8, 3))
T("SEND by the second declaration", one(("SEND", 1, 2, [UNK]), (), [(0, 1, 2, (I,)), (0, 1, 2, (B,))]), OK(1, 1))
T("SEND that fits two declarations only in parts",
  one(("SEND", 1, 2, []), (), [(0, 1, 3, ()), (0, 4, 2, ())]), NO(8, 24, 3))
T("RECV undeclared by channel", put(A, 47, 2), NO(8, 46, 3))
T("RECV undeclared by message", put(A, 48, 3), NO(8, 46, 3))
T("RECV undeclared by count", put(A, 49, 0, 50, 0xFF), NO(8, 46, 3))
T("RECV undeclared by kind: its variable made Boolean", put(A, 31, 2), NO(8, 46, 3))
T("RECV undeclared by direction", put(A, 38, 0), NO(8, 46, 3))
T("SEND declared by the other class only",
  enc_file([([], [(0, 0, 0, ())], SKIP), ([], [], ("SEND", 0, 0, []))], P0), NO(8, 21, 3))
T("SEND undeclared with an absent variable in its value: the value first", put(A, 24, 3, 27, 1), NO(6, 26, 4))
T("SEND undeclared inside SEQ with a wrong place: the SEND first",
  put(one(("SEQ", ("SEND", 0, 0, []), SKIP)), 9, 0), NO(8, 11, 3))
T("SEND undeclared in the ninth of nine alternatives: the SEND first",
  one(left("SEL", [SKIP] * 8 + [("SEND", 0, 0, [])])), NO(8, 40, 3))
T("SEND undeclared and a byte left over: the SEND first", raw("00 00 22 00 00 00 20"), NO(8, 8, 3))
T("two undeclared SENDs: the first", one(("SEQ", ("SEND", 0, 0, []), ("SEND", 1, 0, []))), NO(8, 11, 3))

# ---------------------------------------------------------------- long files

def towers(ks):
    """32 towers of GUARDs under five levels of SEQ; a tower of k GUARDs has 5 k + 1 bytes"""
    assert len(ks) == 32
    return even("SEQ", [over(k, lambda t: ("GUARD", TRUE_, t), SKIP) for k in ks])

RR = ("RENAME", 0, 1, ("RENAME", 1, 2, P0))           # 8 bytes
H1 = ("HIDE", [1], P0)                                # 7 bytes

LONG = [
    ("4,096 bytes: 1,021 SKIPs in sequence", one(even("SEQ", [SKIP] * 1021), beh=H1), 4096, OK(1, 1)),
    ("4,096 bytes: a sum of 1,019 unknown Integers", one(("SET", 0, even("ADD", [IUNK] * 1019)), [(I, 0)], beh=H1), 4096, OK(1, 1)),
    ("4,096 bytes: 32 towers of GUARDs, 32 deep", one(towers([26] * 30 + [11, 0]), beh=RR), 4096, OK(1, 1)),
    ("4,096 bytes: the last tower reaches depth 33", one(towers([0, 10] + [26] * 29 + [27]), beh=RR), 4096, NO(5, 4085, 4)),
    ("4,096 bytes: a byte left over at place 4,095", one(even("SEQ", [SKIP] * 1022)) + b"\x00", 4096, NO(4, 4095, 5)),
    ("4,096 bytes: the class takes all, no behaviour",
     one(even("SEQ", [SKIP] * 1019 + [("SEND", 0, 0, [])]), (), [(0, 0, 0, ())])[:4096], 4096, NO(4, 4096, 5)),
    ("4,096 bytes: eight classes, seven of 127 SKIPs and one of 130", enc_file(
        [([], [], even("SEQ", [SKIP] * 127))] * 7 + [([], [], even("SEQ", [SKIP] * 130))], RR), 4096, OK(8, 1)),
    ("4,096 bytes: all zero", bytes(4096), 4096, NO(2, 0, 1)),
    ("4,097 bytes: 1,021 SKIPs in sequence, good but for the length", one(even("SEQ", [SKIP] * 1021), beh=RR), 4097, NO(1, 0, 1)),
    ("4,097 bytes: all zero, the length first", bytes(4097), 4097, NO(1, 0, 1)),
]

for what, data, size, want in LONG:
    if len(data) != size: sys.exit("%s: has %d bytes" % (what, len(data)))
    T(what, data, want)

# ---------------------------------------------------------------- a build site
# Names for the comments: channels and messages as the classes know them.

NOTES = {}

def N(note, *t):
    """a command with a remark for its row"""
    t = tuple(list(t))
    NOTES[id(t)] = (t, note)
    return t

def less(a, b): return ("LESS", a, b)
def same(a, b): return ("SAME", a, b)
def V(n): return ("VAR", n)
def num(n): return ("INT", n)

PLANNER = (
    [(I, None), (B, None)],
    [(1, 0, 0, (I,)), (0, 3, 0, (I,)), (1, 3, 1, (B,)), (0, 1, 0, (I,)), (0, 9, 3, (I,))],
    N("for ever", "DO", TRUE_,
      N("a number of jobs, then the jobs one by one", "SEQ",
        N("In?jobs(left)", "RECV", 0, 0, [0]),
        N("while left > 0", "DO", less(num(0), V(0)),
          ("SEQ", N("Ask!lookup(left)", "SEND", 3, 0, [V(0)]),
           ("SEQ", N("Ask?answer(there)", "RECV", 3, 1, [1]),
            ("SEQ",
             N("if there; an unknown answer leaves both ways open", "IF", V(1),
               N("Out!reused(left)", "SEND", 9, 3, [V(0)]),
               N("Order!build(left)", "SEND", 1, 0, [V(0)])),
             N("left := left - 1", "SET", 0, ("SUB", V(0), num(1))))))))))

WORKER = (
    [(I, None)],
    [(1, 4, 0, (I,)), (0, 5, 2, (I,)), (0, 9, 2, (I,))],
    N("for ever", "DO", TRUE_,
      ("SEQ", N("Orders?build(job)", "RECV", 4, 0, [0]),
       N("the build: whether it succeeds is left open", "IF", UNK,
         N("Results!store(job)", "SEND", 5, 2, [V(0)]),
         N("Out!failed(job)", "SEND", 9, 2, [V(0)])))))

CACHE = (
    [(I, 0), (I, 0), (I, None), (I, None), (I, 0), (I, 0)],
    [(1, 3, 0, (I,)), (0, 3, 1, (B,)), (1, 2, 2, (I,)), (1, 8, 0, (I,)), (0, 9, 4, (I, I))],
    N("for ever", "DO", TRUE_,
      N("either a lookup, or a store, or something for or from outside", "SEL",
        N("a lookup and its answer", "SEQ", N("Asked?lookup(job)", "RECV", 3, 0, [3]),
         N("Asked!answer(a = job or b = job or old = job)", "SEND", 3, 1,
           [("OR", same(V(0), V(3)), ("OR", same(V(1), V(3)), same(V(2), V(3))))])),
        ("SEL",
         N("a store: the older of two artifacts makes room", "SEQ",
           N("Stores?store(job)", "RECV", 2, 2, [3]),
           ("SEQ", N("b := a", "SET", 1, V(0)),
            ("SEQ", N("a := job", "SET", 0, V(3)),
             N("stored := stored + 1", "SET", 4, ("ADD", V(4), num(1)))))),
         ("SEL",
          N("Disk?scanned(old)", "RECV", 8, 0, [2]),
          N("only when something was stored since the last report", "GUARD", less(V(5), V(4)),
            ("SEQ", N("Out!report(stored, a)", "SEND", 9, 4, [V(4), V(0)]),
             N("reported := stored", "SET", 5, V(4)))))))))

SITE_TREE = N("orders and stores stay inside", "HIDE", [1, 2],
    ("PAR",
     N("lookups stay between planner and cache", "HIDE", [3],
       ("PAR", N("the planner", "PROC", 0), N("the cache", "PROC", 2))),
     N("the workers' port Orders is the site's channel 1", "RENAME", 4, 1,
       N("the workers' port Results is the site's channel 2", "RENAME", 5, 2,
         ("PAR", N("a worker", "PROC", 1), N("a worker", "PROC", 1))))))

BUILD_SITE = enc_file([PLANNER, WORKER, CACHE], SITE_TREE)
SITE_CLASSES = [("planner", ["left", "there"], PLANNER), ("worker", ["job"], WORKER),
                ("cache", ["a", "b", "old", "job", "stored", "reported"], CACHE)]
MESSAGES = {(0, 0): "jobs", (3, 0): "lookup", (3, 1): "answer", (1, 0): "build", (4, 0): "build", (5, 2): "store",
            (2, 2): "store", (8, 0): "scanned", (9, 2): "failed", (9, 3): "reused", (9, 4): "report"}

SITE_TEXT = """\
A build site: a planner, two workers and an artifact cache.

    process class Planner
      ports      In, Ask, Order, Out
      messages   In?jobs(Integer), Ask!lookup(Integer), Ask?answer(Boolean),
                 Order!build(Integer), Out!reused(Integer)
      variables  left: Integer, there: Boolean
      Run()()
        while true do
          In?jobs(left);
          while left > 0 do
            Ask!lookup(left); Ask?answer(there);
            if there then Out!reused(left) else Order!build(left) fi;
            left := left - 1
          od
        od

    process class Worker
      ports      Orders, Results, Out
      messages   Orders?build(Integer), Results!store(Integer), Out!failed(Integer)
      variables  job: Integer
      Run()()
        while true do
          Orders?build(job);
          if unknown then Results!store(job) else Out!failed(job) fi
        od

    process class Cache
      ports      Asked, Stores, Disk, Out
      messages   Asked?lookup(Integer), Asked!answer(Boolean), Stores?store(Integer),
                 Disk?scanned(Integer), Out!report(Integer, Integer)
      variables  a := 0, b := 0, old: Integer, job: Integer, stored := 0, reported := 0
      Run()()
        while true do
          sel Asked?lookup(job); Asked!answer(a = job or b = job or old = job)
          or  Stores?store(job); b := a; a := job; stored := stored + 1
          or  Disk?scanned(old)
          or  [reported < stored] Out!report(stored, a); reported := stored
          les
        od

Jobs and artifacts are numbered from 1; 0 in a or b is an empty slot. The slot
old holds what an earlier run left on the disk. It is unknown until the outside
has scanned the disk, and so long the answer to a lookup is true for a job in a
or b and unknown for any other: the planner may then build or reuse. After
scanned(0) every answer for a known job is true or false, and the job goes to a
worker exactly when it is in no slot.

Channels of the classes:

    0  Planner In         jobs (message 0), open to the outside
    1  Planner Order      build (0)
    2  Cache Stores       store (2)
    3  Planner Ask, Cache Asked: lookup (0), answer (1)
    4  Worker Orders      build (0), renamed to 1
    5  Worker Results     store (2), renamed to 2
    8  Cache Disk         scanned (0), open to the outside
    9  Out of all three   failed (2), reused (3), report (4), open to the outside

Channel 3 is hidden around planner and cache, channels 1 and 2 around the whole
site. Processes: 0 the planner, 1 the cache, 2 and 3 the workers."""

def children(t):
    if t[0] == "SEND": return list(t[3])
    if t[0] in ("INT", "BOOL", "IUNK", "VAR", "SKIP", "RECV", "PROC"): return []
    if t[0] == "SET": return [t[2]]
    if t[0] == "HIDE": return [t[2]]
    if t[0] == "RENAME": return [t[3]]
    return list(t[1:])

def meaning(n, names):
    o, own = n.ops, n.name
    if own == "INT": return "INT %d" % w4s(o)
    if own == "BOOL": return "BOOL " + ("false", "true", "unknown")[o[0]]
    if own == "VAR": return "VAR %d, %s" % (o[0], names[o[0]])
    if own == "SET": return "SET variable %d, %s" % (o[0], names[o[0]])
    if own == "SEND": return "SEND channel %d, message %d, %d value%s" % (o[0], o[1], o[2], "" if o[2] == 1 else "s")
    if own == "RECV":
        return "RECV channel %d, message %d, into %s" % (o[0], o[1], ", ".join(names[v] for v in o[3:3 + o[2]]))
    if own in ("GUARD", "DO"): return "%s, statement at %d" % (own, w2(o))
    if own == "IF": return "IF, then at %d, else at %d" % (w2(o[:2]), w2(o[2:]))
    if own == "PROC": return "PROC of class %d: process %d" % (o[0], n.number)
    if own == "HIDE": return "HIDE channels " + ", ".join(str(c) for c in range(32) if w2(o) >> c & 1)
    if own == "RENAME": return "RENAME channel %d to %d" % (o[0], o[1])
    if len(o) == 2: return "%s, second part at %d" % (own, w2(o))
    return own

def site_rows():
    f = check(BUILD_SITE)
    d = f.data
    rows = [(0, 4, 0, "header, %d classes" % d[3])]
    def walk(n, t, names, ind):
        assert n.name == t[0]
        text = "  " * ind + meaning(n, names)
        if id(t) in NOTES: text += ": " + NOTES[id(t)][1]
        rows.append((n.place, n.place + 1 + len(n.ops), n.depth, text))
        for a, b in zip(n.parts, children(t)): walk(a, b, names, ind + 1)
    for i, (c, (name, names, (_, _, tree))) in enumerate(zip(f.classes, SITE_CLASSES)):
        rows.append((c.place, c.place + 2, 0, "class %d, the %s: %d bytes, places %d to %d" % (i, name, c.end - c.start, c.start, c.end - 1)))
        q = c.start
        rows.append((q, q + 1, 0, "%d variable%s" % (len(c.vars), "" if len(c.vars) == 1 else "s")))
        q += 1
        for k, v in enumerate(c.vars):
            kind = "Integer" if v[0] == I else "Boolean"
            rows.append((q, q + 6, 0, "variable %d, %s: %s, %s" % (k, names[k], kind, "unknown" if v[1] is None else "at first " + show(v))))
            q += 6
        rows.append((q, q + 1, 0, "%d declarations" % len(c.decls)))
        q += 1
        for way, ch, m, ks in c.decls:
            rows.append((q, q + 8, 0, "%s, channel %d, message %d, %s(%s)" % (
                ("send", "receive")[way], ch, m, MESSAGES[ch, m], ", ".join("Integer" if k == I else "Boolean" for k in ks))))
            q += 8
        walk(c.statement, tree, names, 0)
    walk(f.behaviour, SITE_TREE, None, 0)
    at = 0
    for a, b, _, _ in rows:
        assert a == at
        at = b
    assert at == len(d)
    return rows

def try_site():
    """the site does something: twelve jobs in three rounds, with the disk scanned after the first"""
    e, j = Engine(), Lst(10 ** 6)
    assert e.load(BUILD_SITE) == "ok"
    turn, table = Rotation(), Lst(1088)
    def internal(p, n): return (0, p, n, 255, 255, 255, 255)
    def serve():
        """closed steps by turns, and every send to the outside, until neither is left"""
        while True:
            count, why = e.run(500, turn, table, j)
            assert why == 1, (count, why)
            out = [s for s in steps(e.model) if s[0] == 2]
            if not out: return
            assert e.take(out[0], [], j) == "ok"
    serve()
    first = len(j.items)
    for scan, jobs in ((None, 4), (0, 4), (2, 4)):
        if scan is not None:
            s = [s for s in steps(e.model) if s[0] == 3 and s[5] == 8]
            assert len(s) == 1 and e.take(s[0], [(1, 1, scan)], j) == "ok"
            serve()
        s = [s for s in steps(e.model) if s[0] == 3 and s[5] == 0]
        assert len(s) == 1 and e.take(s[0], [(1, 1, jobs)], j) == "ok"
        serve()
    # and a walk over all steps, outside ones among them, that never comes to rest
    walk = Lst(10 ** 6)
    assert e.load(BUILD_SITE) == "ok"
    for k in range(600):
        ss = steps(e.model)
        assert ss, k
        s = ss[(5 * k + k // 7) % len(ss)]
        assert e.take(s, [(1, 1, k % 5)] if s[0] == 3 else [], walk) == "ok"
    seen = {(s[0], s[5], s[6]) for s, _, _ in walk.items}
    assert seen == {(0, 255, 255), (1, 1, 0), (1, 2, 2), (1, 3, 0), (1, 3, 1),
                    (2, 9, 2), (2, 9, 3), (2, 9, 4), (3, 0, 0), (3, 8, 0)}, seen
    return first, j.items, seen

# ---------------------------------------------------------------- printing

def hold():
    """every answer of the table against the rules once more"""
    for what, data, want in TABLE:
        got = shell_check(hexs(data).split())
        if got != text_of(want): sys.exit("%s: written %s, found %s" % (what, text_of(want), got))
    names = [what for what, _, _ in TABLE]
    assert len(set(names)) == len(names), [n for n in names if names.count(n) > 1]

def line(data): return ("check " + hexs(data)).strip()

def print_table():
    for what, data, want in TABLE:
        print("# %s, expected: %s" % (what, text_of(want)))
        print(line(data))

def print_samples():
    print("# The samples A to I. Behind each comment is the line for the shell, with the answer in the comment.")
    for what, data, want in TABLE:
        if not what.startswith("sample "): continue
        if what.startswith("sample G"):
            for w, q, a in (("sample F: a sum above the range", "ADD 2147483647 1", "?i"),
                            ("sample F: the fraction is dropped toward zero", "DIV -7 2", "-3"),
                            ("sample F: a quotient above the range", "DIV -2147483648 -1", "?i"),
                            ("sample G: AND is false when a part is false", "AND ?b false", "false")):
                assert shell_eval(q) == ["%s = %s" % (q, a), "value " + a]
                print("#\n# %s, expected: %s = %s, then value %s\neval %s" % (w, q, a, a, q))
        print("#\n# %s, expected: %s\n%s" % (what, text_of(want), line(data)))

def print_site():
    print("\n".join(("# " + l).rstrip() for l in SITE_TEXT.split("\n")))
    print("#\n# The file has %d bytes. Its places, bytes, depth of the commands, and meaning:\n#" % len(BUILD_SITE))
    for a, b, depth, text in site_rows():
        where = "%d-%d" % (a, b - 1) if b - a > 1 else str(a)
        print("# %-9s %-25s %2s  %s" % (where, hexs(BUILD_SITE[a:b]), depth or "", text))
    print("#\n# expected: admitted classes 3 processes 4\n" + line(BUILD_SITE))

def print_report():
    pairs, good = {}, 0
    for _, _, want in TABLE:
        if want[0] == "admitted": good += 1
        else: pairs[want[1], want[3]] = pairs.get((want[1], want[3]), 0) + 1
    print("files in the table: %d, admitted %d, refused %d" % (len(TABLE), good, len(TABLE) - good))
    print("different files: %d" % len({d for _, d, _ in TABLE}))
    print("pairs of fault and layer (files):")
    for (n, l), k in sorted(pairs.items()): print("  %d/%d  %d" % (n, l, k))
    first, items, seen = try_site()
    print("build site: %d bytes, %d steps before the first jobs, %d steps for three rounds of four jobs" % (
        len(BUILD_SITE), first, len(items) - first))
    print("  600 steps of a walk without rest; its steps (kind, channel, message): " + ", ".join("%d %d %d" % s for s in sorted(seen)))

T("the build site of examples/build-site.txt", BUILD_SITE, OK(3, 4))

if __name__ == "__main__":
    hold()
    try_site()
    what = sys.argv[1:] or ["table"]
    {"table": print_table, "samples": print_samples, "example": print_site, "report": print_report}[what[0]]()
