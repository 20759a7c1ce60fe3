"""Writes the listings 085.txt to 200.txt into the directory given as argument.

Each listing is kept with the answer it was made for: "accepted", or the number
of the first failing question and the place, as in "2 at 5".
"""

import os
import random
import sys

FIRST, LAST = 85, 200
RANDOM = random.Random(20240229)
CASES = []  # pairs of the intended answer and the text


def below(n):
    return int(RANDOM.random() * n)


def pick(items):
    return items[below(len(items))]


def text_of(lines):
    """The bytes of the lines, each with its LF. Lines may be str or bytes."""
    return b"".join((x if isinstance(x, bytes) else x.encode("ascii")) + b"\n" for x in lines)


def case(answer, text):
    CASES.append((answer, text))


def listing(answer, *lines):
    case(answer, text_of(lines))


# A good program of two procedures. Statement n is on line n + 2.
BASE = [
    "cells 2 4",     # line 1
    "set l0",        # line 2
    "read l1",       # line 3
    "add l2 l0 l1",  # line 4
    "test l2 6",     # line 5
    "call g0 1 l2",  # line 6
    "goto 1",        # line 7
    "ret l2",        # line 8
    "move g1 l0",    # line 9
    "trim l0 l0",    # line 10
    "send g1",       # line 11
    "ret l0",        # line 12
]


def changed(answer, changes):
    """BASE with the given lines replaced."""
    lines = list(BASE)
    for number, line in changes.items():
        lines[number - 1] = line
    listing(answer, *lines)


def filled(header, last, size):
    """A text of exactly size bytes, with good forms, between header and last."""
    short, longer = b"set g0\n", b"send g0\n"  # 7 and 8 bytes
    room = size - len(header) - len(last)
    count, extra = divmod(room, len(short))
    return header + longer * extra + short * (count - extra) + last


def random_program(procedures, statements, globals_=None, locals_=None):
    """A good program, as lines, with the given counts."""
    g = below(32) if globals_ is None else globals_
    l = 1 + below(32) if locals_ is None else locals_
    sizes = [1] * procedures
    for _ in range(statements - procedures):
        sizes[below(procedures)] += 1

    def cell():
        index = below(g + l)
        return "g%d" % index if index < g else "l%d" % (index - g)

    lines = ["cells %d %d" % (g, l)]
    entry = 0
    for size in sizes:
        for _ in range(size - 1):
            point = entry + below(size)
            lines.append(pick([
                lambda: "set %s" % cell(),
                lambda: "move %s %s" % (cell(), cell()),
                lambda: "add %s %s %s" % (cell(), cell(), cell()),
                lambda: "read %s" % cell(),
                lambda: "send %s" % cell(),
                lambda: "goto %d" % point,
                lambda: "test %s %d" % (cell(), point),
                lambda: "call %s %d %s" % (cell(), below(procedures), cell()),
                lambda: "trim %s %s" % (cell(), cell()),
            ])())
        lines.append("ret %s" % cell())
        entry += size
    return lines


def random_faults(questions, procedures, statements):
    """A random program with one fault made for each of the questions, on
    different lines; the answer is the least question, then the least line."""
    lines = random_program(procedures, statements, 1 + below(31))
    rets = [n for n, line in enumerate(lines, 1) if line.startswith("ret")]
    free = [n for n in range(2, len(lines)) if n not in rets]
    faults = []
    if procedures > 60:
        faults.append((6, rets[60]))
    for question in questions:
        if question == 3:
            lines[0] = pick(["cells 32 1", "cells 31 33", "cells 0 0", "cells 100 1"])
            faults.append((3, 1))
        elif question == 5:
            lines[-1] = "send l0"
            faults.append((5, len(lines)))
        else:
            number = free.pop(below(len(free)))
            next_entry = min(n for n in rets if n > number) - 1  # after this procedure's ret
            lines[number - 1] = pick({
                2: ["set", "move l0", "set l00", "goto 01", "ret  l0", "send l0 ", "halt", ""],
                7: ["set l32", "move l0 g31", "add l0 l0 l9999", "test l100 0", "send g9999",
                    "call l0 9999 g31", "call l32 0 l0", "trim g31 l0", "test g31 9999"],
                8: ["goto %d" % next_entry, "test l0 %d" % next_entry, "goto %d" % statements,
                    "test g0 9999"],
                9: ["call l0 %d l0" % procedures, "call l0 9999 g0", "call g0 1000 l0"],
            }[question])
            faults.append((question, number))
    listing("%d at %d" % min(faults), *lines)


# ---- The large ones: the limits of the size and of the number of statements.

case("1 at 0", b"")
case("1 at 0", filled(b"cells 1 1\n", b"ret g0\n", 32769))
# Exactly 32768 bytes pass the first question, but hold too many statements; here the
# last is no ret, and a cell, a jump and a call are bad too.
case("4 at 0", filled(b"cells 1 1\nset g1\ngoto 9999\ncall l0 9999 l0\n", b"set l1\n", 32768))
# Exactly 32768 bytes; the last line has no LF, and G is out of range.
large = filled(b"cells 32 1\n", b"ret g0", 32768)
case("2 at %d" % (large.count(b"\n") + 1), large)
listing("accepted", "cells 1 1", "goto 999", *["set g0"] * 997, "test l0 0", "ret g0")  # N is 1000
listing("4 at 0", "cells 1 1", "goto 999", *["set g0"] * 998, "test l0 0", "ret g0")  # N is 1001
listing("accepted", *random_program(60, 1000, 31, 32))

# ---- Question 2, on line 1.

case("2 at 1", b"c")
case("2 at 1", b"\n")
case("2 at 1", b"cells 1 1")  # no LF at all
listing("2 at 1", "set l0", "ret l0")  # a statement as line 1
listing("2 at 1", "ret l0", "cells 1 1")
changed("2 at 1", {1: "Cells 2 4"})
changed("2 at 1", {1: "cells 2"})
changed("2 at 1", {1: "cells 2 4 1", 3: "set"})
changed("2 at 1", {1: "cells 02 4"})
changed("2 at 1", {1: "cells 2 00"})
changed("2 at 1", {1: "cells 10000 4"})
changed("2 at 1", {1: "cells 2  4"})
changed("2 at 1", {1: "cells 2 4 "})
changed("2 at 1", {1: " cells 2 4"})
changed("2 at 1", {1: "cells\t2 4"})
changed("2 at 1", {1: "cells g2 l4"})
changed("2 at 1", {1: b"\xef\xbb\xbfcells 2 4"})
case("2 at 1", text_of(BASE).replace(b"\n", b"\r\n"))  # CR before every LF

# ---- Question 2, on the other lines; some with faults for later questions too.

changed("2 at 2", {2: "set g10000"})
changed("2 at 7", {2: "set g9", 7: "goto 10000"})
changed("2 at 3", {3: "read l00"})
changed("2 at 9", {1: "cells 32 0", 9: "move g01 l0"})
changed("2 at 2", {2: "set g"})
changed("2 at 11", {11: "send l"})
changed("2 at 4", {4: "add l2 g-1 l1"})
changed("2 at 3", {3: "read G0"})
changed("2 at 12", {2: "set l4", 7: "goto 11", 12: "ret x0"})
changed("2 at 10", {10: "trim l0 0"})
changed("2 at 2", {2: "set l 0"})
changed("2 at 7", {7: "goto l1"})
changed("2 at 7", {7: "goto 00"})
changed("2 at 7", {7: "goto +1"})
changed("2 at 5", {5: "test 6 l2"})
changed("2 at 6", {6: "call g0 l1 l2"})
changed("2 at 9", {9: "move g1\tl0"})
changed("2 at 6", {6: "call g0 1 l2\r"})
changed("2 at 4", {4: "add l2  l0 l1", 5: " test l2 6"})
changed("2 at 12", {12: "ret l0 "})
changed("2 at 2", {2: " set l0", 3: "read l1 "})
changed("2 at 4", {4: "add l2 l0"})
changed("2 at 9", {9: "move g1 l0 l0", 10: "trim l0"})
changed("2 at 12", {12: "ret"})
changed("2 at 8", {8: "", 12: "send l0"})  # an empty line in the middle
case("2 at 13", text_of(BASE) + b"\n")  # an empty last line
case("2 at 12", text_of(BASE)[:-1])  # no last LF
case("2 at 13", text_of(BASE) + b" ")  # a space after the last LF
case("2 at 5", text_of(BASE).replace(b"test l2 6", b"test l2 6 ")[:-1])  # the first of two
changed("2 at 3", {3: "read l\u0661".encode("utf-8")})  # a digit, but not one of 0 to 9
changed("2 at 11", {11: b"send g1\xff"})
changed("2 at 10", {10: b"trim l0 l0\x00"})
changed("2 at 2", {2: "SET l0"})
changed("2 at 7", {7: "jump 1"})
changed("2 at 2", {2: "sett l0"})
changed("2 at 8", {8: "re l2"})
changed("2 at 6", {6: "cells 2 4"})
changed("2 at 3", {3: "read l1\x0bsend l1"})  # only LF ends a line
listing("2 at 2", "cells 0 0", "")

# ---- Question 3.

changed("3 at 1", {1: "cells 32 4"})
changed("3 at 1", {1: "cells 2 0"})
changed("3 at 1", {1: "cells 31 33"})
listing("3 at 1", "cells 9999 9999")  # no statements either
changed("3 at 1", {1: "cells 32 32", 2: "set g32", 7: "goto 11", 9: "call l0 2 l0", 12: "set l0"})

# ---- Question 4, with no statements.

listing("4 at 0", "cells 0 1")

# ---- Question 5.

listing("5 at 2", "cells 0 1", "set l0")
listing("5 at 64", "cells 0 1", *["ret l0"] * 62, "goto 0")  # more than 60 rets too
changed("5 at 12", {2: "set l4", 3: "goto 7", 4: "call l0 2 l0", 8: "set l0", 12: "send l9"})

# ---- Question 6.

listing("accepted", "cells 0 1", *["ret l0"] * 60)
listing("6 at 62", "cells 0 1", *["ret l0"] * 61)
listing("6 at 184", "cells 1 1", *["call g0 69 l0", "goto 0", "ret l1"] * 70)  # others fail too
listing("9 at 2", "cells 1 1", "call g0 60 l0", "call g0 59 l0", *["ret l0"] * 60)

# ---- Question 7.

listing("7 at 2", "cells 0 1", "set g0", "ret l0")
listing("7 at 4", "cells 3 8", "move l5 l7", "set g2", "move l5 g5", "ret l0")
listing("7 at 3", "cells 8 3", "send g5", "send l5", "ret g7")
listing("7 at 3", "cells 0 1", "set l0", "ret l1")
listing("7 at 4", "cells 31 32", "set g30", "set l31", "trim g30 g31", "ret l32")
changed("7 at 4", {4: "add l2 l0 l4"})
changed("7 at 5", {5: "test g2 6"})
changed("7 at 6", {6: "call g0 1 l4"})
changed("7 at 6", {6: "call l9999 2 l0"})
changed("7 at 10", {2: "goto 9999", 3: "call l0 9999 l0", 10: "trim l4 l0", 12: "ret g2"})

# ---- Question 8.

changed("8 at 7", {7: "goto 7"})  # the first point of the next procedure
changed("8 at 9", {9: "goto 6"})  # the last point of the procedure before
changed("8 at 11", {11: "test l0 11"})  # the point after the last
changed("8 at 2", {2: "test l0 9999", 3: "goto 11"})
changed("8 at 10", {2: "call l0 2 l0", 10: "goto 0"})  # a bad call on an earlier line
listing("8 at 5", "cells 0 1", "ret l0", "goto 1", "ret l0", "goto 1", "ret l0")

# ---- Question 9.

changed("9 at 6", {6: "call g0 2 l2"})
changed("9 at 2", {2: "call l0 9999 l0", 11: "call l0 2 l0"})
changed("9 at 11", {3: "call l0 0 l0", 6: "call g0 1 l2", 11: "call l0 10 l0"})

# ---- Accepted.

listing("accepted", "cells 0 1", "ret l0")
listing("accepted", "cells 31 32", "add g30 l31 g0", "call l31 0 g30", "test l31 0", "ret g30")
changed("accepted", {7: "goto 6", 9: "goto 7", 10: "test g0 10", 11: "goto 9"})  # within procedures
changed("accepted", {2: "call l0 0 l0", 9: "call g1 1 g1", 10: "call l0 0 l3"})  # recursion
listing("accepted", "cells 3 8", "move g2 l7", "ret l5", "ret g2", "goto 3", "ret l0")

# ---- Random programs with faults, and good ones.

random_faults([8, 9], 6, 60)
random_faults([7, 8, 9, 7, 8, 9], 8, 120)
random_faults([2, 3, 5, 7, 8, 9, 2, 2], 10, 90)
random_faults([3, 5, 7, 8], 5, 40)
random_faults([5, 7, 7, 8, 9], 61, 150)
random_faults([7, 8, 9], 63, 200)
random_faults([9, 9, 9], 20, 150)
random_faults([8, 8, 8, 9, 9], 30, 250)
random_faults([8, 9, 8], 40, 160)
random_faults([2, 7, 2], 12, 100)
for procedures, statements in [(1, 50), (7, 100), (60, 120), (25, 300)]:
    listing("accepted", *random_program(procedures, statements))
listing("accepted", *random_program(3, 200, 0, 1))


def main():
    directory = sys.argv[1]
    assert len(CASES) == LAST - FIRST + 1, len(CASES)
    os.makedirs(directory, exist_ok=True)
    for number, (_, text) in enumerate(CASES, FIRST):
        with open(os.path.join(directory, "%03d.txt" % number), "wb") as file:
            file.write(text)


if __name__ == "__main__":
    main()
