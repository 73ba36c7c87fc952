#!/usr/bin/env python3
"""What `rota` must print, worked out from the rules of the choosers alone.

A rota is a line `rota CHOOSER`, then lines of closed steps (seven numbers each), a blank line after each turn, and
`end` after the last turn. There is one line for each turn, and one line that begins `wrong:` for a line that is none
of these; such a line changes nothing. Where the chooser is wrong, the lines up to `end` are passed over.
"""

PROCESSES = range(8)
INTERNAL, MEETING = 0, 1


def people(step):
    """The processes that are in a step: its process, and its partner in a meeting."""
    kind, process, _, partner = step[:4]
    return {process, partner} if kind == MEETING else {process}


def first_of(process, steps):
    return min(i for i, s in enumerate(steps) if process in people(s))


class Script:
    def __init__(self, numbers):
        self.rest = list(numbers)

    def choose(self, steps):
        if self.rest and self.rest[0] < len(steps):
            return self.rest.pop(0)
        return None


class Rotation:
    def __init__(self):
        self.circle = list(PROCESSES)  # the cursor's process first

    def choose(self, steps):
        for n, p in enumerate(self.circle):
            if any(p in people(s) for s in steps):
                self.circle = self.circle[n + 1:] + self.circle[:n + 1]
                return first_of(p, steps)
        return 0


class Seniority:
    def __init__(self):
        self.order = list(PROCESSES)

    def choose(self, steps):
        present = set().union(*map(people, steps))
        having = [p for p in self.order if p in present]
        if not having:
            return 0
        n = first_of(having[0], steps)
        kind, process, _, partner = steps[n][:4]
        for p in [process] + ([partner] if kind == MEETING else []):
            if p in self.order:
                self.order.remove(p)
                self.order.append(p)
        return n


class Hold:
    def __init__(self, k, below):
        self.k, self.below, self.left, self.kept = k, below, 0, None

    def choose(self, steps):
        own = [i for i, s in enumerate(steps) if s[0] == INTERNAL and s[1] == self.kept]
        if self.left > 0 and own:
            self.left -= 1
            return own[0]
        n = self.below.choose(steps)
        self.kept, self.left = steps[n][1], self.k
        return n


def number(word, top, fault):
    if not (word.isascii() and word.isdigit()) or int(word) > top:
        raise ValueError(fault)
    return int(word)


NUMBERS = "a script has numbers from 0 to 65535, and hold one from 0 to 255"


def chooser(words):
    if words and words[0] == "script":
        return Script([number(w, 65535, NUMBERS) for w in words[1:]])
    if words == ["rotation"]:
        return Rotation()
    if words == ["seniority"]:
        return Seniority()
    if len(words) == 3 and words[0] == "hold":
        k = number(words[1], 255, NUMBERS)
        if words[2] == "rotation":
            return Hold(k, Rotation())
        if words[2] == "seniority":
            return Hold(k, Seniority())
    raise ValueError("no such chooser")


def step(words):
    if len(words) != 7:
        raise ValueError("a step has seven numbers")
    kind = number(words[0], 1, "a closed step has kind 0 or 1")
    process = number(words[1], 7, "a process is a number from 0 to 7")
    rest = [number(w, 255, "a field of a step is a number from 0 to 255") for w in words[2:]]
    if kind == MEETING and rest[1] not in PROCESSES:
        raise ValueError("a process is a number from 0 to 7")
    return [kind, process] + rest


class Rota:
    def __init__(self, chooser):
        self.chooser, self.turns, self.waiting, self.steps = chooser, 0, [0] * 8, []

    def turn(self):
        steps, self.steps = self.steps, []
        if not steps:
            return
        self.turns += 1
        n = self.chooser.choose(steps)
        if n is None:
            print(f"turn {self.turns} declined")
            return
        present = set().union(*map(people, steps))
        passed_over = present - people(steps[n])
        self.waiting = [self.waiting[p] + 1 if p in passed_over else 0 for p in PROCESSES]
        print(f"turn {self.turns} pick {n}: {' '.join(map(str, steps[n]))}; waiting {' '.join(map(str, self.waiting))}")


def follow(words, lines):
    """The rota that the words name, over the lines that follow, up to its end."""
    try:
        rota = Rota(chooser(words))
    except ValueError as e:
        print(f"wrong: {e}")
        for line in lines:
            if line.split() == ["end"]:
                return
        return
    for line in lines:
        words = line.split()
        if words == ["end"]:
            break
        if not words:
            rota.turn()
            continue
        try:
            rota.steps.append(step(words))
        except ValueError as e:
            print(f"wrong: {e}")
    rota.turn()
