#!/usr/bin/env python3
"""Write listings of probe programs for tests of the table.

    generate_tables.py tables FOLDER
        writes 001.txt to 100.txt, the listings, and 001.run to 100.run, each
        with three lines: the problem, the size of a portion and the end.
    generate_tables.py answers FOLDER
        prints, for each number in order, a line with the number and then
        the output of portions.py on that listing.
    generate_tables.py dense N G L
        prints one dense listing of N statements, G globals and L locals,
        for measuring speed.

The same call always writes the same bytes: the numbers drawn come from a
small generator of this file's own.
"""

import os
import sys

import portions

LISTINGS = 100
MOST_LINES = 60  # of output for one listing, where a portion size allows it


class Draw:
    """A small generator of numbers, the same on every machine."""

    def __init__(self, seed):
        self.state = (seed * 0x9E3779B97F4A7C15 + 0x1234567) % 2**64
        for _ in range(4):
            self.below(2)

    def below(self, limit):
        """A number from 0 to limit - 1."""
        self.state = (self.state * 6364136223846793005
                      + 1442695040888963407) % 2**64
        return (self.state >> 33) % limit

    def between(self, low, high):
        """A number from low to high, both included."""
        return low + self.below(high - low + 1)

    def one_of(self, things):
        """One of a row of things."""
        return things[self.below(len(things))]

    def chance(self, percent):
        """Yes, as often as said."""
        return self.below(100) < percent

    def weighted(self, weights):
        """A key of a dictionary, by the weight it has there."""
        at = self.below(sum(weights.values()))
        for key, weight in weights.items():
            if at < weight:
                return key
            at -= weight
        raise AssertionError


# ---------------------------------------------------------------------------
# Random procedures
# ---------------------------------------------------------------------------

MIXED = {"set": 6, "move": 14, "add": 14, "read": 12, "send": 4, "goto": 2,
         "test": 14, "call": 26, "trim": 8}
CALLING = {"set": 2, "move": 8, "add": 10, "read": 8, "send": 1, "test": 12,
           "call": 55, "trim": 4}
LOOPING = {"set": 3, "move": 14, "add": 20, "read": 8, "send": 2, "goto": 4,
           "test": 30, "call": 16, "trim": 3}


class Maker:
    """Draws statements for a program with G globals and L locals."""

    def __init__(self, draw, global_count, local_count):
        self.draw = draw
        self.G = global_count
        self.L = local_count

    def cell(self):
        """A cell of the program, as written."""
        at = self.draw.below(self.G + self.L)
        return f"g{at}" if at < self.G else f"l{at - self.G}"

    def head(self):
        """The first line."""
        return f"cells {self.G} {self.L}"

    def target(self, n, entry, leave):
        """Where a jump at n goes: mostly near, sometimes anywhere."""
        if self.draw.chance(25):
            return self.draw.between(entry, leave)
        near = n + self.draw.between(-6, 6)
        return min(max(near, entry), leave)

    def statement(self, op, n, entry, leave, callees):
        """One statement for point n of the procedure from entry to leave."""
        if op == "call" and not callees:
            op = "move"
        if op in ("set", "read", "send"):
            return f"{op} {self.cell()}"
        if op in ("move", "trim"):
            return f"{op} {self.cell()} {self.cell()}"
        if op == "add":
            return f"add {self.cell()} {self.cell()} {self.cell()}"
        if op == "goto":  # forward, so that little becomes unreachable
            return f"goto {self.draw.between(n + 1, min(n + 3, leave))}"
        if op == "test":
            return f"test {self.cell()} {self.target(n, entry, leave)}"
        callee = self.draw.one_of(callees)
        return f"call {self.cell()} {callee} {self.cell()}"

    def procedure(self, entry, length, weights, callees, tail=None):
        """The lines of a procedure; tail is called just before its `ret`."""
        leave = entry + length - 1
        lines = []
        for n in range(entry, leave):
            op = self.draw.weighted(weights)
            lines.append(self.statement(op, n, entry, leave, callees))
        if tail is not None and lines:
            lines[-1] = f"call {self.cell()} {tail} {self.cell()}"
        lines.append(f"ret {self.cell()}")
        return lines


def text_of(lines):
    """The bytes of a listing."""
    return "".join(line + "\n" for line in lines).encode()


def lengths_for(draw, count, total):
    """Parts `total` statements among `count` procedures, each at least 1."""
    lengths = [1] * count
    for _ in range(total - count):
        lengths[draw.below(count)] += 1
    if lengths[0] == 1 and max(lengths) > 1:
        longest = lengths.index(max(lengths))
        lengths[0], lengths[longest] = lengths[longest], lengths[0]
    return lengths


def program(draw, global_count, local_count, lengths, weights, callees_of,
            tail_of=lambda p: None):
    """A listing with procedures of the given lengths."""
    maker = Maker(draw, global_count, local_count)
    lines = [maker.head()]
    for p, length in enumerate(lengths):
        entry = len(lines) - 1
        lines += maker.procedure(entry, length, weights, callees_of(p),
                                 tail_of(p))
    return lines


# ---------------------------------------------------------------------------
# Families of listings
# ---------------------------------------------------------------------------

def counts(draw):
    """G and L of a small program."""
    return draw.between(0, 4), draw.between(1, 4)


def any_calls(draw, weights):
    """Every procedure may call every one, itself included."""
    count = draw.between(1, 8)
    total = draw.between(max(count, 3), 40)
    lengths = lengths_for(draw, count, total)
    return program(draw, *counts(draw), lengths, weights,
                   lambda p: list(range(count)))


def chain(draw):
    """Procedure p calls p + 1, some from two places; no recursion."""
    count = draw.between(3, 8)
    lengths = [draw.between(2, 5) for _ in range(count)]
    return program(draw, *counts(draw), lengths, CALLING,
                   lambda p: [p + 1] if p + 1 < count else [])


def shared(draw):
    """Procedure 0 and others call one and the same, which is short."""
    count = draw.between(2, 4)
    lengths = [draw.between(5, 9) for _ in range(count - 1)]
    lengths.append(draw.between(1, 3))
    return program(draw, *counts(draw), lengths, CALLING,
                   lambda p: [count - 1, min(p + 1, count - 1)]
                   if p + 1 < count else [])


def bare_ret(draw):
    """A callee that is a single `ret`, called in a row from all others."""
    count = draw.between(2, 5)
    bare = draw.between(1, count - 1)
    lengths = [1 if p == bare else draw.between(3, 7) for p in range(count)]
    return program(draw, *counts(draw), lengths, CALLING,
                   lambda p: [bare, bare, draw.between(1, count - 1)])


def itself(draw):
    """Procedures that call themselves, also just before their own `ret`."""
    count = draw.between(1, 4)
    lengths = [draw.between(3, 8) for _ in range(count)]
    return program(draw, *counts(draw), lengths, LOOPING,
                   lambda p: [p, p, draw.below(count)],
                   lambda p: p if draw.chance(70) else None)


def mutual(draw):
    """Procedures that call one another in a ring."""
    count = draw.between(2, 4)
    lengths = [draw.between(3, 8) for _ in range(count)]
    return program(draw, *counts(draw), lengths, MIXED,
                   lambda p: [(p + 1) % count, (p + 1) % count, p],
                   lambda p: (p + 1) % count if draw.chance(60) else None)


def loops(draw):
    """Many tests, forward and back."""
    count = draw.between(1, 3)
    lengths = [draw.between(4, 12) for _ in range(count)]
    return program(draw, *counts(draw), lengths, LOOPING,
                   lambda p: list(range(count)))


def unreachable(draw):
    """Only the procedures of even number are ever called from procedure 0."""
    count = draw.between(4, 8)
    lengths = [draw.between(1, 5) for _ in range(count)]
    lengths[0] = 6
    return program(draw, *counts(draw), lengths, CALLING,
                   lambda p: list(range(p % 2, count, 2)))


def tiny(draw):
    """Up to six statements."""
    total = draw.between(1, 6)
    count = draw.between(1, min(3, total))
    return program(draw, *counts(draw), lengths_for(draw, count, total),
                   MIXED, lambda p: list(range(count)))


FAMILIES = [
    lambda draw: any_calls(draw, MIXED),
    itself,
    shared,
    bare_ret,
    mutual,
    lambda draw: any_calls(draw, CALLING),
    chain,
    loops,
    lambda draw: any_calls(draw, LOOPING),
    unreachable,
    itself,
    tiny,
]


# ---------------------------------------------------------------------------
# Listings written out, refused ones and larger ones
# ---------------------------------------------------------------------------

def written_out():
    """Listings thought out for one point of the rules each.

    Each stands with the problem and the end that show the point.
    """
    return [
        # A call whose callee trims; a global gets the result.
        ("unset", "oldest",
         ["cells 1 2", "read l0", "call g0 1 l0", "send g0", "ret g0",
          "trim l1 l0", "ret l1"]),
        # Two calls of one procedure that must not be mixed up.
        ("raw", "oldest",
         ["cells 0 2", "read l0", "set l1", "call l0 1 l0", "call l1 1 l1",
          "ret l1", "ret l0"]),
        # One pair by several cells.
        ("unset", "newest",
         ["cells 1 1", "add l0 g0 l0", "ret l0"]),
        # A single ret.
        ("unset", "oldest",
         ["cells 0 1", "ret l0"]),
        # The call stands just before its own procedure's ret, and the
        # cells found after it are exit cells of the callee.
        ("unset", "newest",
         ["cells 3 1", "read g0", "test g0 3", "call g1 0 g0", "ret g1"]),
        ("unset", "oldest",
         ["cells 3 2", "test l0 2", "call g2 0 l0", "call g1 0 g2",
          "call g0 0 g1", "ret g0"]),
        # Calls of one procedure in a row: what a return finds at the first
        # is at once a caller's cell at the second.
        ("raw", "newest",
         ["cells 2 1", "read l0", "call g0 1 l0", "call g1 1 g0",
          "call l0 1 g1", "ret l0", "move g0 l0", "ret g0"]),
        # A callee that is a single ret is entry and exit in one.
        ("unset", "newest",
         ["cells 2 2", "read g1", "call l1 1 g1", "call g0 1 l1", "ret g0",
          "ret l0"]),
        ("unset", "newest",
         ["cells 1 2", "call l0 1 g0", "call g0 1 l0", "call l1 1 l1",
          "ret l1", "ret g0"]),
        # A call whose argument and result are the same cell, in a loop.
        ("raw", "newest",
         ["cells 1 2", "read l0", "call l0 1 l0", "test l0 1", "move g0 l0",
          "ret g0", "add l1 l0 g0", "test l1 5", "ret l1"]),
        # A test that goes to the next point, and one that goes to itself.
        ("unset", "oldest",
         ["cells 0 2", "test l0 1", "test l1 1", "read l0", "goto 4",
          "ret l0"]),
        # Two procedures that call each other, with no way out of either.
        ("unset", "newest",
         ["cells 1 1", "call l0 1 l0", "ret l0", "call l0 0 l0", "ret l0"]),
        # The same with a way out.
        ("raw", "oldest",
         ["cells 1 2", "test l0 3", "read l1", "call l0 1 l1", "ret l0",
          "test g0 6", "call g0 0 l0", "ret l1"]),
        # Callers of one procedure stand before it and after it.
        ("raw", "newest",
         ["cells 1 1", "test l0 5", "read l0", "call g0 1 l0", "call l0 2 g0",
          "call g0 1 g0", "ret g0", "add g0 g0 l0", "ret g0",
          "call l0 1 l0", "call g0 1 g0", "ret l0"]),
        # A return to one call under two entry facts, which afterwards find
        # different numbers of cells.
        ("unset", "oldest",
         ["cells 0 3", "add l0 l0 l1", "call l2 1 l0", "add l1 l1 l2",
          "ret l1", "send l0", "ret l0"]),
        # The same for three entry facts and two callers.
        ("unset", "oldest",
         ["cells 1 3", "add l0 l0 l1", "add l0 l0 l2", "call g0 1 l0",
          "add l1 l1 g0", "call l2 1 l1", "add l1 l2 l1", "ret l1",
          "trim g0 l0", "ret g0"]),
        # A call whose callee has several exit cells already, which
        # afterwards find different numbers of cells.
        ("unset", "newest",
         ["cells 2 2", "call l1 1 l0", "set g0", "set g1", "call l1 1 l0",
          "add l0 l0 g0", "ret l0", "add g0 g0 l0", "add g1 g1 l0", "ret g0"]),
        ("raw", "newest",
         ["cells 3 1", "read l0", "call g2 1 l0", "test g2 4", "set g0",
          "set g1", "call l0 1 g2", "add l0 g0 g1", "move g2 g0", "ret g2",
          "move g0 l0", "add g1 g0 g1", "ret l0"]),
    ]


def refused():
    """Bytes of listings that are not in order, one or more a question."""
    good = ["cells 1 2", "read l0", "call g0 1 l0", "test g0 0", "ret g0",
            "trim l1 l0", "ret l1"]

    def changed(at, line):
        return text_of(good[:at] + [line] + good[at + 1:])

    return [
        b"",
        changed(3, "test g0  0"),
        changed(5, "trim l01 l0"),
        text_of(good)[:-1],
        changed(0, "cells 32 2"),
        text_of(["cells 0 1"]),
        text_of(good[:-1]),
        text_of(["cells 0 1"] + ["ret l0"] * 61),
        changed(5, "trim l2 l0"),
        changed(3, "test g0 4"),
        changed(2, "call g0 2 l0"),
    ]


def larger(seed):
    """150 statements, 6 globals and 6 locals, 8 procedures, many cells."""
    weights = dict(MIXED, call=14, add=24, move=18, test=18)
    while True:
        draw = Draw(seed)
        lengths = lengths_for(draw, 8, 150)
        text = text_of(program(draw, 6, 6, lengths, weights,
                               lambda p: list(range(8))))
        if full_table(text, "unset").found >= 2500:
            return text
        seed += 1


# ---------------------------------------------------------------------------
# The hundred listings and their runs
# ---------------------------------------------------------------------------

SIZES = [1, 1, 2, 3, 5, 7, 10, 25, 100, 400, 1000]
WHOLE = 1000000


def full_table(text, problem):
    """The table with all found, or None if the listing is refused."""
    try:
        read = portions.read_listing(text)
    except portions.Refused:
        return None
    table = portions.open_and_sow(read, problem)
    while table.waiting:
        table.work(WHOLE, "oldest")
    return table


def portion_size(draw, text, problem):
    """A portion size for which the output stays short."""
    table = full_table(text, problem)
    if table is None:
        return draw.one_of([1, 7, WHOLE])
    if draw.chance(6):
        return WHOLE
    lawful = [k for k in SIZES if -(-table.found // k) <= MOST_LINES]
    return lawful[0] if draw.chance(75) else draw.one_of(lawful + [WHOLE])


def enough_found(text, problem):
    """Is there something to see in a listing: many cells, and returns?"""
    table = full_table(text, problem)
    returns = table.kind.count(portions.RETURN)
    if problem == "unset":
        return table.found >= 24 and returns >= 4
    return table.found >= 14 and returns >= 1


def drawn(number):
    """A listing of a family, the next that has something to see."""
    make = FAMILIES[number % len(FAMILIES)]
    seed = 1000 * number
    while True:
        text = text_of(make(Draw(seed)))
        if make is tiny or enough_found(text, "unset"):
            return text
        seed += 1


def all_listings():
    """The bytes of the hundred listings, in order."""
    texts = [text_of(lines) for _, _, lines in written_out()]
    texts += refused()
    big = [larger(seed) for seed in (7000, 8000, 9000)]
    number = 0
    while len(texts) + len(big) < LISTINGS:
        texts.append(drawn(number))
        number += 1
    return texts + big


def all_runs(texts):
    """The problem, the portion size and the end for each listing.

    They are drawn, but the listings written out and the larger ones have
    runs of their own.
    """
    draw = Draw(4242)
    runs = []
    for text in texts:
        problem = "unset"
        if full_table(text, "raw") is None or draw.chance(12):
            problem = draw.one_of(["unset", "raw"])
        elif enough_found(text, "raw") and draw.chance(80):
            problem = "raw"
        end = draw.one_of(["oldest", "newest"])
        runs.append((problem, portion_size(draw, text, problem), end))
    for index, (problem, end, _) in enumerate(written_out()):
        runs[index] = (problem, 1, end)
    runs[-3:] = [("unset", 100, "newest"), ("raw", 100, "oldest"),
                 ("unset", 400, "oldest")]
    return runs


def write_tables(folder):
    """Write the hundred listings and their runs."""
    texts = all_listings()
    for index, (text, made) in enumerate(zip(texts, all_runs(texts))):
        name = os.path.join(folder, f"{index + 1:03}")
        with open(name + ".txt", "wb") as file:
            file.write(text)
        with open(name + ".run", "w") as file:
            file.write("".join(f"{word}\n" for word in made))


def print_answers(folder):
    """Print the output of portions.py for every listing of a folder."""
    names = sorted(n[:-4] for n in os.listdir(folder) if n.endswith(".run"))
    for name in names:
        path = os.path.join(folder, name)
        with open(path + ".txt", "rb") as file:
            text = file.read()
        with open(path + ".run") as file:
            problem, size, end = file.read().split()
        print(name)
        for line in portions.run(text, problem, int(size), end):
            print(line)


# ---------------------------------------------------------------------------
# A dense listing
# ---------------------------------------------------------------------------

DENSE = {"add": 54, "move": 16, "test": 28, "read": 2}
CALLS_PER_PROCEDURE = 5


def dense_call_sites(draw, bounds):
    """The points that hold a call, each with its callee.

    Every procedure but the first is called from several places: from the
    one before it, so that all can be entered, and from any others.  No two
    of these points stand side by side.
    """
    sites = {}
    for p in range(1, len(bounds)):
        callers = [p - 1] + [draw.below(len(bounds))
                             for _ in range(CALLS_PER_PROCEDURE - 1)]
        for caller in callers:
            entry, leave = bounds[caller]
            free = [n for n in range(entry + 1, leave - 1)
                    if not {n - 1, n, n + 1} & set(sites)]
            if free:
                sites[draw.one_of(free)] = p
    return sites


def dense_statement(maker, n, entry, leave):
    """A statement that keeps many facts alive."""
    draw = maker.draw
    op = draw.weighted(DENSE)
    if op == "add" and draw.chance(60):
        kept = maker.cell()
        return f"add {kept} {kept} {maker.cell()}"
    if op == "test":  # skip a few statements, or go back some
        at = n + draw.between(2, 4) if draw.chance(70) else n - draw.below(30)
        return f"test {maker.cell()} {min(max(at, entry), leave)}"
    return maker.statement(op, n, entry, leave, [])


def dense_procedure(maker, p, entry, leave, sites):
    """One procedure: nearly all of it is a loop.

    A call of the procedure itself or of an earlier one has a test before it
    that may skip it, so that every recursion has a way out.
    """
    lines = []
    for n in range(entry, leave):
        if n in sites:
            line = f"call {maker.cell()} {sites[n]} {maker.cell()}"
        elif sites.get(n + 1, p + 1) <= p:
            line = f"test {maker.cell()} {n + 2}"
        elif n == leave - 1:
            line = f"test {maker.cell()} {entry}"
        else:
            line = dense_statement(maker, n, entry, leave)
        lines.append(line)
    lines.append(f"ret {maker.cell()}")
    return lines


def dense(statement_count, global_count, local_count):
    """The lines of a dense listing."""
    draw = Draw(77)
    maker = Maker(draw, global_count, local_count)
    count = max(1, statement_count // 100)
    edges = [p * statement_count // count for p in range(count + 1)]
    bounds = [(edges[p], edges[p + 1] - 1) for p in range(count)]
    sites = dense_call_sites(draw, bounds)
    lines = [maker.head()]
    for p, (entry, leave) in enumerate(bounds):
        lines += dense_procedure(maker, p, entry, leave, sites)
    return lines


def main(arguments):
    """Do what the first argument names; gives the exit status."""
    if len(arguments) == 2 and arguments[0] == "tables":
        write_tables(arguments[1])
    elif len(arguments) == 2 and arguments[0] == "answers":
        print_answers(arguments[1])
    elif len(arguments) == 4 and arguments[0] == "dense":
        text = text_of(dense(*(int(word) for word in arguments[1:])))
        portions.read_listing(text)
        sys.stdout.buffer.write(text)
    else:
        print("use: generate_tables.py tables FOLDER | answers FOLDER"
              " | dense N G L", file=sys.stderr)
        return 2
    return 0


if __name__ == "__main__":
    sys.exit(main(sys.argv[1:]))
