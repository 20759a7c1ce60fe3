#!/usr/bin/env python3
"""Tabulate a probe program in portions, and print the tallies after each.

This is a separate program, written from the rules alone.  It shares no line
with any other program that fills the same table; its one purpose is to be
compared with one.

    portions.py PROBLEM K END [--records] < listing

PROBLEM is `unset` or `raw`, K is the size of a portion (1 or more), and END
is the end of the waiting row that cells are taken from, `oldest` or `newest`.

The listing is read from standard input.  If it is not in order, the one line
`refused QUESTION at PLACE` is printed.  Otherwise the default starts of the
problem are sown, and while a cell waits, one portion of at most K cells is
settled and the line `found X settled Y waiting Z` is printed.  The last line
is `cells C`, the number of cells found.  With `--records` there follows, for
every found cell in order of its number,
`cell NUMBER rank R kind K first U second V`.
"""

import re
import sys
from array import array
from collections import deque, namedtuple

MOST_BYTES = 32768
MOST_GLOBALS = 31
MOST_LOCALS = 32
MOST_STATEMENTS = 1000
MOST_PROCEDURES = 60

START, STEP, PAST, CALL, RETURN = 1, 2, 3, 4, 5

ZERO = 0


class Refused(Exception):
    """A no to one of the questions that are put to a listing."""

    def __init__(self, question, place):
        super().__init__(f"refused {question} at {place}")
        self.question = question
        self.place = place


# ---------------------------------------------------------------------------
# The listing and its statements
# ---------------------------------------------------------------------------

# The operands of every statement: a letter names each one.  D, S and T are
# cells, K is a point and P is a procedure.
OPERANDS = {
    b"set": "D",
    b"move": "DS",
    b"add": "DST",
    b"read": "D",
    b"send": "S",
    b"goto": "K",
    b"test": "SK",
    b"call": "DPS",
    b"ret": "S",
    b"trim": "DS",
}

NUMBER = re.compile(rb"0|[1-9][0-9]{0,3}")

# A cell as it is written: its letter and its number.
Written = namedtuple("Written", "letter number")


def number_of(word):
    """The number that a word is, or None if it is none."""
    return int(word) if NUMBER.fullmatch(word) else None


def cell_of(word):
    """The cell that a word writes, or None if it writes none."""
    number = number_of(word[1:])
    if word[:1] in (b"g", b"l") and number is not None:
        return Written(word[:1].decode(), number)
    return None


def head_of(line):
    """G and L of a first line, or None if it has not its form."""
    words = line.split(b" ")
    if len(words) != 3 or words[0] != b"cells":
        return None
    counts = [number_of(word) for word in words[1:]]
    return None if None in counts else counts


def statement_of(line):
    """A statement as a dictionary, or None if the line has not its form."""
    words = line.split(b" ")
    operands = OPERANDS.get(words[0])
    if operands is None or len(words) != len(operands) + 1:
        return None
    statement = {"op": words[0].decode()}
    for letter, word in zip(operands, words[1:]):
        value = cell_of(word) if letter in "DST" else number_of(word)
        if value is None:
            return None
        statement[letter] = value
    return statement


class Program:
    """A listing to which every question was answered with yes."""

    def __init__(self, global_count, local_count, statements):
        self.G = global_count
        self.L = local_count
        self.N = len(statements)
        self.statements = [self._with_plain_cells(s) for s in statements]
        self.entries, self.exits = procedure_bounds(statements)
        self.P = len(self.exits)
        self.procedure_at = []
        for p in range(self.P):
            length = self.exits[p] - self.entries[p] + 1
            self.procedure_at.extend([p] * length)
        self.calls_of = [[] for _ in range(self.P)]
        for n, statement in enumerate(self.statements):
            if statement["op"] == "call":
                self.calls_of[statement["P"]].append(n)

    def _with_plain_cells(self, statement):
        """The statement with each cell as a number: globals, then locals."""
        plain = dict(statement)
        for letter in "DST":
            if letter in plain:
                written = plain[letter]
                base = 0 if written.letter == "g" else self.G
                plain[letter] = base + written.number
        return plain

    def successors(self, n):
        """The points that may follow point n, in their order."""
        statement = self.statements[n]
        op = statement["op"]
        if op == "goto":
            return [statement["K"]]
        if op == "test":
            return [n + 1, statement["K"]]
        if op in ("call", "ret"):
            return []
        return [n + 1]


def procedure_bounds(statements):
    """The entries and the exits of the procedures, in order."""
    exits = [n for n, s in enumerate(statements) if s["op"] == "ret"]
    entries = [0] + [n + 1 for n in exits[:-1]]
    return entries, exits


# ---------------------------------------------------------------------------
# The questions 1 to 9
# ---------------------------------------------------------------------------

def ask_size(data):
    """1. Is the text 1 to 32,768 bytes?"""
    if not 1 <= len(data) <= MOST_BYTES:
        raise Refused(1, 0)


def ask_form(data):
    """2. Has each line its form and LF?  Gives G, L and the statements."""
    lines = data.split(b"\n")
    rest = lines.pop()  # what stands after the last LF
    head, statements = None, []
    for index, line in enumerate(lines):
        read = head_of(line) if index == 0 else statement_of(line)
        if read is None:
            raise Refused(2, index + 1)
        if index == 0:
            head = read
        else:
            statements.append(read)
    if rest:
        raise Refused(2, len(lines) + 1)
    return head[0], head[1], statements


def ask_counts(global_count, local_count):
    """3. Are G and L in range?"""
    if global_count > MOST_GLOBALS or not 1 <= local_count <= MOST_LOCALS:
        raise Refused(3, 1)


def ask_length(statements):
    """4. Is N in range?"""
    if not 1 <= len(statements) <= MOST_STATEMENTS:
        raise Refused(4, 0)


def line_of(n):
    """The line, counted from 1, of the statement at point n."""
    return n + 2


def ask_last(statements):
    """5. Is the last statement `ret`?"""
    if statements[-1]["op"] != "ret":
        raise Refused(5, line_of(len(statements) - 1))


def ask_procedures(statements):
    """6. Is there no 61st `ret`?"""
    exits = [n for n, s in enumerate(statements) if s["op"] == "ret"]
    if len(exits) > MOST_PROCEDURES:
        raise Refused(6, line_of(exits[MOST_PROCEDURES]))


def ask_cells(global_count, local_count, statements):
    """7. Is every cell one of the program's?"""
    limits = {"g": global_count, "l": local_count}
    for n, statement in enumerate(statements):
        for letter in "DST":
            if letter in statement:
                written = statement[letter]
                if written.number >= limits[written.letter]:
                    raise Refused(7, line_of(n))


def ask_jumps(statements):
    """8. Does each `goto` and `test` stay in its procedure?"""
    for entry, leave in zip(*procedure_bounds(statements)):
        for n in range(entry, leave + 1):
            statement = statements[n]
            if statement["op"] in ("goto", "test"):
                if not entry <= statement["K"] <= leave:
                    raise Refused(8, line_of(n))


def ask_callees(statements):
    """9. Does each called procedure exist?"""
    count = len(procedure_bounds(statements)[1])
    for n, statement in enumerate(statements):
        if statement["op"] == "call" and statement["P"] >= count:
            raise Refused(9, line_of(n))


def read_listing(data):
    """The program of a listing; a no to any question is raised as Refused."""
    ask_size(data)
    global_count, local_count, statements = ask_form(data)
    ask_counts(global_count, local_count)
    ask_length(statements)
    ask_last(statements)
    ask_procedures(statements)
    ask_cells(global_count, local_count, statements)
    ask_jumps(statements)
    ask_callees(statements)
    return Program(global_count, local_count, statements)


# ---------------------------------------------------------------------------
# The two problems
# ---------------------------------------------------------------------------

def fact(cell):
    """The fact that speaks of a cell."""
    return cell + 1


class Problem:
    """Unset or raw, for one program: which facts follow from which.

    The four methods `follows_by_...` answer for one pair of facts.  The
    methods below them list all facts that answer yes, ascending, and keep
    each list once it is made.
    """

    def __init__(self, name, program):
        self.name = name
        self.program = program
        self.F = program.G + program.L + 1
        self._kept = {}

    def default_starts(self):
        """The facts that procedure 0 is sown with."""
        return list(range(self.F)) if self.name == "unset" else [ZERO]

    def is_global(self, f):
        """Does the fact speak of a global cell?"""
        return 1 <= f <= self.program.G

    # -- one pair of facts ---------------------------------------------------

    def follows_by_step(self, n, d, e):
        """Does e follow from d over the statement at n?"""
        if e == ZERO:
            return d == ZERO
        statement = self.program.statements[n]
        op = statement["op"]
        if "D" not in statement or e != fact(statement["D"]):
            return d == e
        if op == "set":
            return False
        if op == "read":
            return self.name == "raw" and d == ZERO
        if op == "move":
            return d == fact(statement["S"])
        if op == "trim":
            return self.name == "unset" and d == fact(statement["S"])
        if op == "add":
            return d in (fact(statement["S"]), fact(statement["T"]))
        raise AssertionError(op)

    def follows_by_call(self, n, d, e):
        """Does e at the callee's entry follow from d at the call n?"""
        if e == ZERO:
            return d == ZERO
        if self.is_global(e):
            return d == e
        if e == fact(self.program.G):  # local 0
            return d == fact(self.program.statements[n]["S"])
        return self.name == "unset" and d == ZERO

    def follows_by_return(self, n, d, e):
        """Does e after the call n follow from d at the callee's exit?"""
        if e == ZERO:
            return d == ZERO
        call = self.program.statements[n]
        leave = self.program.exits[call["P"]]
        if e == fact(call["D"]):
            return d == fact(self.program.statements[leave]["S"])
        return self.is_global(e) and d == e

    def follows_by_past(self, n, d, e):
        """Does e after the call n follow from d at the call, past it?"""
        if e == ZERO:
            return d == ZERO
        if e == fact(self.program.statements[n]["D"]) or self.is_global(e):
            return False
        return d == e

    # -- all facts, ascending ------------------------------------------------

    def _targets(self, relation, n, d):
        key = (relation.__name__, n, d)
        if key not in self._kept:
            self._kept[key] = [e for e in range(self.F) if relation(n, d, e)]
        return self._kept[key]

    def by_step(self, n, d):
        """Every e by step from d at n."""
        return self._targets(self.follows_by_step, n, d)

    def by_past(self, n, d):
        """Every e by past from d at the call n."""
        return self._targets(self.follows_by_past, n, d)

    def by_call(self, n, d):
        """Every e by call from d at the call n."""
        return self._targets(self.follows_by_call, n, d)

    def by_return(self, n, d):
        """Every e by return from d at the exit of the callee of n."""
        return self._targets(self.follows_by_return, n, d)

    def into_call(self, n, e):
        """Every d from which e follows by call at the call n."""
        key = ("into_call", n, e)
        if key not in self._kept:
            self._kept[key] = [
                d for d in range(self.F) if self.follows_by_call(n, d, e)]
        return self._kept[key]


# ---------------------------------------------------------------------------
# The table
# ---------------------------------------------------------------------------

class Table:
    """One record for each cell, and the row of the cells that wait."""

    def __init__(self, program, problem):
        self.program = program
        self.problem = problem
        self.F = problem.F
        size = program.N * self.F * self.F
        self.rank = array("I", bytes(4 * size))
        self.kind = bytearray(size)
        self.first = array("I", bytes(4 * size))
        self.second = array("I", bytes(4 * size))
        self.waiting = deque()
        self.found = 0
        self.settled = 0

    def number(self, n, a, d):
        """The number of cell (n, a, d)."""
        return (n * self.F + a) * self.F + d

    def parts(self, number):
        """The n, a and d of a cell."""
        rest, d = divmod(number, self.F)
        n, a = divmod(rest, self.F)
        return n, a, d

    def find(self, number, kind, first=0, second=0):
        """Find a cell; says whether it is new."""
        if self.rank[number]:
            return False
        self.found += 1
        self.rank[number] = self.found
        self.kind[number] = kind
        self.first[number] = first
        self.second[number] = second
        self.waiting.append(number)
        return True

    def sow(self, p, d):
        """Sow procedure p with fact d; gives 1 if the cell is new, else 0."""
        entry = self.program.entries[p]
        return int(self.find(self.number(entry, d, d), START))

    def work(self, k, end):
        """Settle up to k cells from one end of the row; gives how many."""
        done = 0
        while done < k and self.waiting:
            if end == "oldest":
                cell = self.waiting.popleft()
            else:
                cell = self.waiting.pop()
            self.settle(cell)
            self.settled += 1
            done += 1
        return done

    def settle(self, cell):
        """Find all that one cell leads to."""
        n, a, d = self.parts(cell)
        op = self.program.statements[n]["op"]
        if op == "call":
            self.settle_call(cell, n, a, d)
        elif op == "ret":
            self.settle_ret(cell, n, a, d)
        else:
            self.settle_step(cell, n, a, d)

    def settle_step(self, cell, n, a, d):
        """A cell at a statement that is neither `call` nor `ret`."""
        for m in self.program.successors(n):
            for e in self.problem.by_step(n, d):
                self.find(self.number(m, a, e), STEP, cell)

    def settle_call(self, cell, n, a, d):
        """A cell at a `call`: past it, into it, and back where that is known.

        Whether an exit cell is found is looked up when its turn comes, so a
        cell that this very loop finds may take part in it.
        """
        p = self.program.statements[n]["P"]
        entry, leave = self.program.entries[p], self.program.exits[p]
        for e in self.problem.by_past(n, d):
            self.find(self.number(n + 1, a, e), PAST, cell)
        for e in self.problem.by_call(n, d):
            self.find(self.number(entry, e, e), CALL, cell)
            for z in range(self.F):
                exit_cell = self.number(leave, e, z)
                if self.rank[exit_cell]:
                    for y in self.problem.by_return(n, z):
                        self.find(self.number(n + 1, a, y), RETURN,
                                  cell, exit_cell)

    def settle_ret(self, cell, n, a, d):
        """A cell at a `ret`: back to each call that leads in with fact a.

        Whether a call's cell is found is looked up when its turn comes, so a
        cell that this very loop finds may take part in it.
        """
        p = self.program.procedure_at[n]
        for c in self.program.calls_of[p]:
            sources = self.problem.into_call(c, a)
            arrivals = self.problem.by_return(c, d)
            for b in range(self.F):
                for f in sources:
                    call_cell = self.number(c, b, f)
                    if self.rank[call_cell]:
                        for y in arrivals:
                            self.find(self.number(c + 1, b, y), RETURN,
                                      call_cell, cell)

    def tallies(self):
        """The numbers found, settled and waiting."""
        return self.found, self.settled, len(self.waiting)

    def found_cells(self):
        """The numbers of the found cells, ascending."""
        return (c for c in range(len(self.rank)) if self.rank[c])


# ---------------------------------------------------------------------------
# A whole run
# ---------------------------------------------------------------------------

def open_and_sow(program, problem_name):
    """A table for a program, sown with the default starts of a problem."""
    problem = Problem(problem_name, program)
    table = Table(program, problem)
    for d in problem.default_starts():
        table.sow(0, d)
    return table


def portion_lines(table, k, end):
    """Do the work in portions; gives the line for each portion."""
    while table.waiting:
        table.work(k, end)
        found, settled, waiting = table.tallies()
        yield f"found {found} settled {settled} waiting {waiting}"


def record_lines(table):
    """The record of each found cell, in order of the cell's number."""
    for c in table.found_cells():
        yield (f"cell {c} rank {table.rank[c]} kind {table.kind[c]} "
               f"first {table.first[c]} second {table.second[c]}")


def run(data, problem_name, k, end, records=False):
    """All lines of the output for one listing."""
    try:
        program = read_listing(data)
    except Refused as no:
        yield str(no)
        return
    table = open_and_sow(program, problem_name)
    yield from portion_lines(table, k, end)
    yield f"cells {table.found}"
    if records:
        yield from record_lines(table)


def main(arguments):
    """Run on standard input; gives the exit status."""
    records = len(arguments) == 4 and arguments[3] == "--records"
    lawful = (
        (len(arguments) == 3 or records)
        and arguments[0] in ("unset", "raw")
        and re.fullmatch("[1-9][0-9]*", arguments[1]) is not None
        and arguments[2] in ("oldest", "newest"))
    if not lawful:
        print("use: portions.py unset|raw K oldest|newest [--records]",
              file=sys.stderr)
        return 2
    data = sys.stdin.buffer.read()
    for line in run(data, arguments[0], int(arguments[1]), arguments[2],
                    records):
        print(line)
    return 0


if __name__ == "__main__":
    sys.exit(main(sys.argv[1:]))
