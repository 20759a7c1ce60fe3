"""Reads a trail and tells its moves, and whether it is a call-matched path.

usage: trail.py LISTING TRAIL

LISTING is an accepted listing. The words of TRAIL are the problem, unset or raw,
and the words of the trail in hexadecimal.
"""

import sys

KINDS = {1: "start", 2: "step", 3: "past", 4: "call", 5: "return"}


class Program:
    def __init__(self, text):
        lines = [line.split() for line in text.splitlines()]
        self.globals, self.locals = int(lines[0][1]), int(lines[0][2])
        self.statements = lines[1:]
        self.facts = self.globals + self.locals + 1
        self.exits = [n for n, s in enumerate(self.statements) if s[0] == "ret"]
        self.entries = [0] + [n + 1 for n in self.exits[:-1]]

    def fact(self, name):
        """The fact that speaks of the cell with this name."""
        index = int(name[1:])
        return 1 + (index if name[0] == "g" else self.globals + index)

    def successors(self, n):
        """The points that a step leads to."""
        s = self.statements[n]
        if s[0] in ("call", "ret"):
            return set()
        if s[0] == "goto":
            return {int(s[1])}
        if s[0] == "test":
            return {n + 1, int(s[2])}
        return {n + 1}

    def is_global(self, fact):
        return 1 <= fact <= self.globals


def causes_over_step(program, problem, s, e):
    """The facts from which e follows over the statement s."""
    if e == 0:
        return {0}
    if s[0] in ("set", "read", "move", "trim", "add") and program.fact(s[1]) == e:
        if s[0] == "set":
            return set()
        if s[0] == "read":
            return {0} if problem == "raw" else set()
        if s[0] == "trim" and problem == "raw":
            return set()
        return {program.fact(name) for name in s[2:]}
    return {e}


def causes_past(program, s, e):
    if e == 0:
        return {0}
    if e == program.fact(s[1]) or program.is_global(e):
        return set()
    return {e}


def causes_of_call(program, problem, s, e):
    if e == 0 or program.is_global(e):
        return {e}
    if e == program.globals + 1:
        return {program.fact(s[3])}
    return {0} if problem == "unset" else set()


def causes_of_return(program, s, ret, e):
    if e == 0:
        return {0}
    if e == program.fact(s[1]):
        return {program.fact(ret[1])}
    return {e} if program.is_global(e) else set()


def successors(program, problem, state):
    """Every state that one lawful move leads to, with its kind. A state is a point, a fact and the open calls."""
    n, d, calls = state
    s = program.statements[n]
    found = []

    def arrive(kind, point, causes, calls):
        for e in range(program.facts):
            if d in causes(e):
                found.append((kind, (point, e, calls)))

    for point in program.successors(n):
        arrive(2, point, lambda e: causes_over_step(program, problem, s, e), calls)
    if s[0] == "call":
        arrive(3, n + 1, lambda e: causes_past(program, s, e), calls)
        arrive(4, program.entries[int(s[2])], lambda e: causes_of_call(program, problem, s, e), calls + (n,))
    if s[0] == "ret" and calls:
        caller = program.statements[calls[-1]]
        arrive(5, calls[-1] + 1, lambda e: causes_of_return(program, caller, s, e), calls[:-1])
    return found


def starts(program):
    return [(1, (entry, d, ())) for entry in program.entries for d in range(program.facts)]


def word_of(kind, state):
    return kind << 29 | state[0] << 19 | state[1] << 13


def review(program, problem, words):
    told = ""
    reachable = starts(program)
    for place, word in enumerate(words):
        moves = [(kind, state) for kind, state in reachable if word_of(kind, state) == word]
        if not moves:
            return told + "refused 18 at %d\n" % place
        kind, state = moves[0]
        point, fact, calls = state
        stands = "cell %d" % (fact - 1) if fact else "zero"
        told += "%s point %d fact %d %s open %d\n" % (KINDS[kind], point, fact, stands, len(calls))
        reachable = successors(program, problem, state)
    if not words:
        return "refused 18 at 0\n"
    return told + "a call-matched path\n"


def main():
    with open(sys.argv[1]) as listing, open(sys.argv[2]) as trail:
        problem, *words = trail.read().split()
        print(review(Program(listing.read()), problem, [int(w, 16) for w in words]), end="")


if __name__ == "__main__":
    main()
