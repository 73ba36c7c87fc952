#!/usr/bin/env python3
"""Lines for the shell's session commands, each with the answer it must get.

The answers are written in the table by hand, worked out from docs/CALLS.md and docs/CHOOSERS.md; the script holds each
one to tools/oracle.py. The lines begin on a new engine, so they stand where no session command came before, as behind
the other lines of crates/vektrib/stdin:

    python3 tools/session_table.py input      the lines, comments among them
    python3 tools/session_table.py answers    what the program must print for them
    python3 tools/session_table.py example    examples/site-session.txt
    python3 tools/session_table.py report     number of lines, of each command
"""
import contextlib, io, sys
sys.dont_write_bytecode = True
from oracle import *
from check_docs import SITE, LOOPS, A, guard_unknown
from file_table import put, left, less, same, num, V, SKIP, WORKER, SITE_TREE
from step_table import INT, VAR, YES, NO, UNK

TABLE = []                                            # lines, each with its answers; None for a comment

def note(text): TABLE.append((("\n" if TABLE else "") + "# " + text, None))

def T(line, *answers): TABLE.append((line, list(answers)))

def load(data, answer="loaded"): T(("load " + hexs(data)).strip(), answer)

LIST = "wrong: expected list [ROOM], a room from 0 to 65535"
RUN = "wrong: expected run BUDGET [ROOM], a budget from 0 to 4294967295 and a room from 0 to 65535"
JOURNAL = "wrong: expected journal [ROOM], a room from 0 to 65535"
TAKE = "wrong: expected take and seven numbers from 0 to 255, then values"
STATE = "wrong: expected state and nothing else"
NONE = "wrong: no such chooser"
NUMBERS = "wrong: a script has numbers from 0 to 65535, and hold one from 0 to 255"

# ---------------------------------------------------------------- a new engine

note("a session on one engine: nothing is loaded yet")
T("list", "listed 0")
T("list 1088", "listed 0")
T("list 0001088", "listed 0")
T("list 65535", "listed 0")
T("list 1087", "refused 12")
T("list 0", "refused 12")
T("run 0", "ran 0 stop 0")
T("run 5", "ran 0 stop 1")
T("run 4294967295", "ran 0 stop 1")
T("run 00000000005 65535", "ran 0 stop 1")
T("run 5 1087", "refused 12")
T("run 0 0", "refused 12")
T("take 0 0 0 255 255 255 255", "refused 21")
T("take 3 0 0 255 255 0 0 7 true", "refused 21")
T("journal", "journal 0")
T("state", "processes 0")

# ---------------------------------------------------------------- malformed lines

note("malformed lines change nothing")
for rest in ("x", "-1", "+5", "65536", "1088 1088", "1,088", "1088.", "99999999999999999999", "0x440"): T("list " + rest, LIST)
for rest in ("", "x", "-1", "+1", "4294967296", "18446744073709551616", "5 65536", "5 x", "5 -1", "5 1088 1", "x 1088", "5 1088 x"):
    T(("run " + rest).strip(), RUN)
for rest in ("", "0 0 0 255 255 255", "256 0 0 255 255 255 255", "0 0 0 255 255 255 256", "-1 0 0 255 255 255 255",
             "+0 0 0 255 255 255 255", "0 0 x 255 255 255 255", "0 0 0 255 255 255 ?i", "0 0 0 255 255 255 255 x",
             "0 0 0 255 255 255 255 2147483648", "0 0 0 255 255 255 255 -2147483649", "0 0 0 255 255 255 255 True",
             "0 0 0 255 255 255 255 ?", "0 0 0 255 255 255 255 ?I", "0 0 0 255 255 255 255 1 2 -",
             "0 0 0 255 255 255 255 ADD 1 2", "0 0 0 255 255 255 255 1e3", "x 0 0 255 255 255 255 7"):
    T(("take " + rest).strip(), TAKE)
for rest in ("x", "-1", "+1", "65536", "0 0", "1000 x"): T("journal " + rest, JOURNAL)
for rest in ("0", "state", "x y"): T("state " + rest, STATE)
for rest in ("", "Rotation", "rotation 1", "seniority seniority", "hold", "hold 3", "hold rotation", "hold 3 script", "hold 3 rotation 1",
             "hold 3 hold 3 rotation", "3 seniority"): T(("chooser " + rest).strip(), NONE)
for rest in ("hold 256 rotation", "hold x seniority", "hold -1 rotation", "hold +1 rotation", "script 65536", "script x", "script 0 1 -1",
             "script 0 +1", "script 1,2"): T("chooser " + rest, NUMBERS)
T("load 5", "wrong: expected two digits for each byte, found an odd number of digits")
T("load 50 53 0x", "wrong: word 3: expected hexadecimal digits, found '0x'")
T("load x y", "wrong: word 1: expected hexadecimal digits, found 'x'")
T("Load", "wrong: unknown command 'Load'; help lists the commands")
T("journals", "wrong: unknown command 'journals'; help lists the commands")
T("journal", "journal 0")
T("state", "processes 0")
T("list", "listed 0")

# ---------------------------------------------------------------- one meeting

A_STATE = ["processes 2", "process 0: 22; 7", "process 1: 46; 0"]
AM = "1 0 0 1 0 1 2"

note("one meeting, and what is refused around it")
load(b"", "refused 1 place 0 layer 1")
load(A[:-1], "refused 4 place 64 layer 5")
T("state", "processes 0")
load(A)
T("state", *A_STATE)
T("list", "listed 1", AM)
T("take 1 0 0 1 0 1 3", "refused 21")
T("take 1 0 0 1 255 1 2", "refused 21")
T("take 1 0 0 1 0 1 3 7", "refused 21")
T("take 1 0 0 1 0 1 2 7", "refused 11")
T("take 1 0 0 1 0 1 2 ?i", "refused 11")
T("take 1 0 0 1 0 1 2 7 x", TAKE)
T("state", *A_STATE)
load(put(A, 27, 1), "refused 6 place 26 layer 4")
load(put(A, 24, 3), "refused 8 place 22 layer 3")
T("state", *A_STATE)
T("\t take  01 00 000 1 0 1   2 ", "took 1 0 0 1 0 1 2 1 7")
T("take 1 0 0 1 0 1 2", "refused 21")
T("list", "listed 0")
T("journal", "journal 1", AM + " 1 7")
T("state", "processes 2", "process 0: ended; 7", "process 1: ended; 7")
T("run 9", "ran 0 stop 1")

# ---------------------------------------------------------------- values from the outside

OPEN = put(A, 55, 0)                                  # nothing hidden: three steps
note("the same with nothing hidden: steps with the outside, and their values")
load(OPEN)
T("list", "listed 3", AM, "2 0 0 255 255 1 2", "3 1 0 255 255 1 2")
for given in ("", " 7 7", " true", " ?b", " 7 true", " 1 2 3 4 5 6 7 8 9"): T("take 3 1 0 255 255 1 2" + given, "refused 11")
T("take 2 0 0 255 255 1 2 7", "refused 11")
for given, value in (("-3", "-3"), ("+7", "7"), ("007", "7"), ("-0", "0"), ("-2147483648", "-2147483648"), ("2147483647", "2147483647"), ("?i", "?i")):
    load(OPEN)
    T("take 3 1 0 255 255 1 2 " + given, "took 3 1 0 255 255 1 2 1 " + value)
T("state", "processes 2", "process 0: 22; 7", "process 1: ended; ?i")
T("take 2 0 0 255 255 1 2", "took 2 0 0 255 255 1 2 1 7")
T("journal", "journal 9", AM + " 1 7", *["3 1 0 255 255 1 2 1 " + v for v in ("-3", "7", "7", "0", "-2147483648", "2147483647", "?i")],
  "2 0 0 255 255 1 2 1 7")

FOUR = enc_file([([(B, 0), (I, 0), (I, -5), (B, None)], [(1, 4, 1, (I, B, B, I)), (0, 6, 0, (B, I, I, B))],
                  ("SEQ", ("RECV", 4, 1, [1, 3, 0, 2]), ("SEND", 6, 0, [VAR(0), VAR(1), VAR(2), VAR(3)])))], ("PROC", 0))
note("four values at once, known and unknown")
load(FOUR)
T("state", "processes 1", "process 0: 48; false 0 -5 ?b")
T("take 3 0 0 255 255 4 1 1 true false", "refused 11")
T("take 3 0 0 255 255 4 1 true 1 false 2", "refused 11")
T("take 3 0 0 255 255 4 1 1 true ?b ?b", "refused 11")
T("take 3 0 0 255 255 4 1 -1 true ?b ?i", "took 3 0 0 255 255 4 1 4 -1 true ?b ?i")
T("state", "processes 1", "process 0: 59; ?b -1 ?i true")
T("take 2 0 0 255 255 6 0", "took 2 0 0 255 255 6 0 4 ?b -1 ?i true")
T("state", "processes 1", "process 0: ended; ?b -1 ?i true")

# ---------------------------------------------------------------- journals

note("journals: of room 0, 1 and 2, each new one empty; records stay across loads")
T("journal 0", "journal of room 0")
load(OPEN)
T("take 3 1 0 255 255 1 2 7", "refused 22")
T("take 3 1 0 255 255 1 2", "refused 11")
T("take 3 1 1 255 255 1 2", "refused 21")
T("run 0", "ran 0 stop 0")
T("run 1", "ran 0 stop 3")
T("run 1 1087", "refused 12")
T("journal", "journal 0")
T("state", *A_STATE)
T("journal 1", "journal of room 1")
T("run 5", "ran 1 stop 1")
load(OPEN)
T("run 5", "ran 0 stop 3")
T("journal", "journal 1", AM + " 1 7")
T("journal 00002", "journal of room 2")
T("journal", "journal 0")
T("take 2 0 0 255 255 1 2", "took 2 0 0 255 255 1 2 1 7")
load(guard_unknown())
T("run 4", "ran 0 stop 1")
load(LOOPS)
T("run 4294967295", "ran 1 stop 3")
T("journal", "journal 2", "2 0 0 255 255 1 2 1 7", "0 0 0 255 255 255 255 0")
T("journal 70000", JOURNAL)
T("journal", "journal 2", "2 0 0 255 255 1 2 1 7", "0 0 0 255 255 255 255 0")
T("journal 1000", "journal of room 1000")

# ---------------------------------------------------------------- choosers

ENTER, STATE_IN, STATE_AT = "0 %d 0 255 255 255 255", "process %d: 13 8;", "process %d: 8;"
note("choosers: two processes that go round for ever; the first chooser holds a process for three more steps")
load(LOOPS)
T("state", "processes 2", STATE_AT % 0, STATE_AT % 1)
T("list", "listed 2", ENTER % 0, ENTER % 1)
T("run 6", "ran 6 stop 0")                            # 0 is kept for two more steps from the run before; it stands before 1, and is kept again
T("run 1", "ran 1 stop 0")                            # then 1
T("journal", "journal 7", *[ENTER % p + " 0" for p in (0, 0, 0, 0, 0, 0, 1)])
T("chooser hold  000 \t rotation", "chooser hold 0 rotation")
T("journal 20", "journal of room 20")
T("run 3", "ran 3 stop 0")
T("chooser hold 256 rotation", NUMBERS)
T("chooser", NONE)
T("run 1 1087", "refused 12")
T("run 2", "ran 2 stop 0")
load(guard_unknown())
T("run 2", "ran 0 stop 1")
load(LOOPS)
T("run 2", "ran 2 stop 0")                            # five were served: the next is 1
T("journal", "journal 7", *[ENTER % p + " 0" for p in (0, 1, 0, 1, 0, 1, 0)])
T("chooser seniority", "chooser seniority")
T("run 1", "ran 1 stop 0")                            # anew from 0
T("chooser hold 1 rotation", "chooser hold 1 rotation")
T("run 5", "ran 5 stop 0")
T("journal 20", "journal of room 20")
T("chooser script 1 0 1 2 0", "chooser script 1 0 1 2 0")
T("run 2", "ran 2 stop 0")
load(LOOPS)
T("run 9", "ran 1 stop 2")                            # the next number is too high
T("run 9", "ran 0 stop 2")
T("run 0", "ran 0 stop 0")
T("chooser script", "chooser script")
T("run 9", "ran 0 stop 2")
T("chooser script 65535 0", "chooser script 65535 0")
T("run 9", "ran 0 stop 2")
T("chooser script 1 1 1 0", "chooser script 1 1 1 0")
T("run 3", "ran 3 stop 0")
T("take 0 0 0 255 255 255 255", "took 0 0 0 255 255 255 255 0")
T("run 3", "ran 1 stop 2")
T("journal", "journal 8", *[ENTER % p + " 0" for p in (1, 0, 1, 1, 1, 1, 0, 0)])
T("state", "processes 2", STATE_AT % 0, STATE_AT % 1)
T("chooser hold 255 seniority", "chooser hold 255 seniority")
T("run 12", "ran 12 stop 0")
T("run 12", "ran 0 stop 3")
T("journal 1000", "journal of room 1000")
T("run 200", "ran 200 stop 0")
T("state", "processes 2", STATE_AT % 0, STATE_AT % 1)
T("run 1", "ran 1 stop 0")
T("state", "processes 2", STATE_IN % 0, STATE_AT % 1)
T("chooser hold 3 seniority", "chooser hold 3 seniority")

# ---------------------------------------------------------------- what remains, values, and the other commands

note("what remains of processes, in between and at the end; the other commands leave the session alone")
MANY = enc_file([([(I, 536870912), (B, None)], [], ("SEQ", ("DO", ("LESS", VAR(0), INT(2000000000)), ("SET", 0, ("ADD", VAR(0), VAR(0)))),
                                                       ("IF", VAR(1), SKIP, ("SET", 1, ("NOT", VAR(1)))))),
                 ([], [], left("SEQ", [SKIP] * 4)), ([(B, 1), (I, -1)], [], ("GUARD", NO, SKIP))],
                ("PAR", ("PROC", 1), ("PAR", ("PROC", 0), ("PAR", ("PROC", 2), ("PROC", 1)))))
T("journal 1000", "journal of room 1000")
T("chooser rotation", "chooser rotation")
load(MANY)
T("state", "processes 4", "process 0: 62;", "process 1: 20; 536870912 ?b", "process 2: 91; true -1", "process 3: 62;")
T("run 3", "ran 3 stop 0")
T("state", "processes 4", "process 0: 72 73 74;", "process 1: 36 23 45; 536870912 ?b", "process 2: 91; true -1", "process 3: 72 73 74;")
T("check " + hexs(guard_unknown()), "admitted classes 1 processes 1")
T("eval ADD 1 2", "ADD 1 2 = 3", "value 3")
T("steps " + hexs(guard_unknown()), "listed 0")
T("list", "listed 3", "0 0 0 255 255 255 255", "0 1 0 255 255 255 255", "0 3 0 255 255 255 255")
T("run 8", "ran 8 stop 0")
T("state", "processes 4", "process 0: ended;", "process 1: 23 45; ?i ?b", "process 2: 91; true -1", "process 3: 74;")
T("list", "listed 3", "0 1 0 255 255 255 255", "0 1 1 255 255 255 255", "0 3 0 255 255 255 255")
T("take 0 1 1 255 255 255 255", "took 0 1 1 255 255 255 255 0")
T("state", "processes 4", "process 0: ended;", "process 1: 45; ?i ?b", "process 2: 91; true -1", "process 3: 74;")
T("take 0 1 1 255 255 255 255 ?b", "refused 11")
T("take 0 1 1 255 255 255 255", "took 0 1 1 255 255 255 255 0")
T("state", "processes 4", "process 0: ended;", "process 1: 53; ?i ?b", "process 2: 91; true -1", "process 3: 74;")
T("run 100", "ran 2 stop 1")
T("state", "processes 4", "process 0: ended;", "process 1: ended; ?i ?b", "process 2: 91; true -1", "process 3: ended;")
T("list", "listed 0")

note("the small build site: two jobs")
T("journal 9", "journal of room 9")
load(SITE)
T("state", "processes 3", "process 0: 30; ?i", "process 1: 101; ?i", "process 2: 101; ?i")
T("list", "listed 1", "3 0 0 255 255 0 0")
T("run 10", "ran 0 stop 1")
T("take 3 0 0 255 255 0 0", "refused 11")
T("take 3 0 0 255 255 0 0 2", "took 3 0 0 255 255 0 0 1 2")
T("run 3", "ran 3 stop 0")
load(SITE[:154], "refused 4 place 153 layer 5")
T("state", "processes 3", "process 0: 41; 1", "process 1: 112; 2", "process 2: 101; ?i")
T("list", "listed 2", "0 0 0 255 255 255 255", "2 1 1 255 255 9 1")
T("take 2 1 1 255 255 9 1", "took 2 1 1 255 255 9 1 1 2")
T("run 10", "ran 4 stop 1")                           # the journal is full too, but no closed step comes first
T("journal", "journal 9", "3 0 0 255 255 0 0 1 2", "0 0 0 255 255 255 255 0", "1 0 0 1 0 1 0 1 2", "0 0 0 255 255 255 255 0",
  "2 1 1 255 255 9 1 1 2", "0 0 0 255 255 255 255 0", "1 0 0 2 0 1 0 1 1", "0 0 0 255 255 255 255 0", "0 0 1 255 255 255 255 0")
T("state", "processes 3", "process 0: ended; 0", "process 1: ended; 2", "process 2: 112; 1")

# ---------------------------------------------------------------- a small build site, from load to rest

ONCE = ([(I, None), (B, None)],
        [(1, 0, 0, (I,)), (0, 3, 0, (I,)), (1, 3, 1, (B,)), (0, 1, 0, (I,)), (0, 9, 3, (I,))],
        ("SEQ", ("RECV", 0, 0, [0]),
         ("DO", less(num(0), V(0)),
          ("SEQ", ("SEND", 3, 0, [V(0)]),
           ("SEQ", ("RECV", 3, 1, [1]),
            ("SEQ", ("IF", V(1), ("SEND", 9, 3, [V(0)]), ("SEND", 1, 0, [V(0)])),
             ("SET", 0, ("SUB", V(0), num(1)))))))))

ARTIFACT = ([(I, 2), (I, None)],
            [(1, 3, 0, (I,)), (0, 3, 1, (B,)), (1, 2, 2, (I,))],
            ("DO", YES, ("SEL", ("SEQ", ("RECV", 3, 0, [1]), ("SEND", 3, 1, [same(V(0), V(1))])), ("RECV", 2, 2, [0]))))

ONE_SITE = enc_file([ONCE, WORKER, ARTIFACT], SITE_TREE)

EXAMPLE = """\
# A small build site, played from load to rest: a planner, two workers and an artifact cache.
#
#     process class Planner
#       Run()()
#         In?jobs(left);
#         while left > 0 do
#           Ask!lookup(left); Ask?answer(there);
#           if there then Out!reused(left) else Order!build(left) fi;
#           left := left - 1
#         od
#
#     process class Worker
#       Run()()
#         while true do
#           Orders?build(job);
#           if unknown then Results!store(job) else Out!failed(job) fi
#         od
#
#     process class Cache
#       variables  a := 2, job: Integer
#       Run()()
#         while true do
#           sel Asked?lookup(job); Asked!answer(a = job)
#           or  Stores?store(a)
#           les
#         od
#
# The outside brings a number of jobs, 3 for jobs 3, 2 and 1. A job whose artifact is in the cache is reused, any other
# is built by a worker; whether a build succeeds is left open. The cache has one slot, and artifact 2 is in it at first.
#
# Channels: 0 jobs, 1 orders (4 to the workers), 2 stores (5 to the workers), 3 lookups and answers, 9 out. Messages on
# channel 3: 0 lookup, 1 answer; on channel 9: 2 failed, 3 reused. Processes: 0 the planner, 1 the cache, 2 and 3 the
# workers. Channels 1, 2 and 3 are hidden inside the site.
#
# A step is written as seven numbers: kind (0 internal, 1 meeting, 2 send to the outside, 3 receive from there), process,
# its front, partner, the partner's front, channel, message; 255 where a field does not apply. Behind each line stands
# what the program answers.

# A new engine holds a model without processes: there is no step, and nothing to run.
list
state

# Load the site. A process shows the places of the statements that remain of it, then its variables. The command `show`
# prints what stands at each place: at 60 the planner, at 172 the worker, at 247 the cache.
load {file}
state

# Steps that are possible now: the three loops can be entered, and the planner takes a number of jobs from the outside.
list

# A run takes steps that need nothing from outside, until its budget is spent or it stops: with 1 where there is none.
run 100
list

# The outside has to bring one Integer: without it the step is refused, and nothing changes.
take 3 0 0 255 255 0 0
take 3 0 0 255 255 0 0 3

# Three steps more: the planner enters its loop, and asks the cache for job 3; the cache answers that it is not there.
run 3
state

# On to the next stop. Job 3 goes to worker 2, whose build succeeds: the chooser picks the first of two ways. The planner
# learns that artifact 2 is there, and waits for the outside to hear of it.
run 100
list
state

# What was exchanged so far: behind the seven numbers stand a count and the values.
journal

# A new journal for the rest. The outside hears that job 2 is reused.
journal 40
take 2 0 0 255 255 9 3

# From now on runs ask a chooser that serves the processes in turn. The cache holds artifact 3 now, so job 1 is built too.
chooser rotation
run 7
state

# Worker 2 has job 1. Its build succeeds by front 0 and fails by front 1; these are the steps number 1 and 2.
list

# A script picks steps by their numbers: number 2, the build fails. Then it is used up, and declines.
chooser script 2
run 5
list

# The outside hears of the failure. The planner counts down, leaves its loop and ends.
take 2 2 0 255 255 9 2
chooser rotation
run 100

# The site is at rest: no step is possible. The planner has ended; the others wait for orders, lookups and stores, which
# nobody inside sends any more, and which cannot come from outside.
list
state

# All that happened since the second half began.
journal
"""

def example():
    """the example, behind each line its answers"""
    session, out = Session(), []
    for line in EXAMPLE.format(file=hexs(ONE_SITE)).splitlines():
        out.append(line)
        words = words_of(line)
        if words and words[0] != "#": out += ["# answer: " + x for x in shell_session(session, words)]
    return out

# ---------------------------------------------------------------- holding and printing

def shell_answers(text):
    with contextlib.redirect_stdout(io.StringIO()) as out: shell(text.splitlines())
    return out.getvalue()

def hold():
    """every answer of the table against the rules; one session, so each line after those before it"""
    session = Session()
    for n, (line, want) in enumerate(TABLE):
        if want is None: continue
        words = words_of(line)
        got = shell_session(session, words) if words[0] in SESSION else shell_answers(line).splitlines()
        if got != want: sys.exit("line %d, %s: written %s, found %s" % (n, line[:60], want, got))
    text = "\n".join(line for line, _ in TABLE)
    assert shell_answers(text).splitlines() == [x for _, want in TABLE for x in want or []]
    return text

if __name__ == "__main__":
    text = hold()
    what = sys.argv[1] if sys.argv[1:] else "report"
    if what == "input": print(text)
    elif what == "answers": print(shell_answers(text), end="")
    elif what == "example": print("\n".join(example()))
    else:
        names = [words_of(line)[0] for line, want in TABLE if want is not None]
        print("%d lines: %s" % (len(names), ", ".join("%s x%d" % (n, names.count(n)) for n in sorted(set(names)))))
        print("%d lines of answers" % sum(len(want) for _, want in TABLE if want is not None))
