"""Writes 120 listings and a trail over each into the directory given as argument.

001.txt is a listing, 001.trail the problem and the words of a trail over it: a
lawful one, or one that is damaged in one place.
"""

import os
import random
import sys

from trail import Program, starts, successors, word_of

RANDOM = random.Random(20261117)


def cell(g, l):
    index = RANDOM.randrange(g + l)
    return "g%d" % index if index < g else "l%d" % (index - g)


def random_listing():
    g, l = RANDOM.choice([(0, 1), (0, 2), (1, 2), (2, 3), (31, 32), (3, 1)])
    procedures = RANDOM.randint(1, 4)
    lines = []
    for _ in range(procedures):
        entry, size = len(lines), RANDOM.randint(0, 4)
        for _ in range(size):
            name = RANDOM.choice(["set", "move", "add", "read", "send", "goto", "test", "call", "call", "trim", "move"])
            cells = [cell(g, l) for _ in range(3)]
            target = str(entry + RANDOM.randint(0, size))
            words = {
                "set": cells[:1], "read": cells[:1], "send": cells[:1],
                "move": cells[:2], "trim": cells[:2], "add": cells,
                "goto": [target], "test": [cells[0], target],
                "call": [cells[0], str(RANDOM.randrange(procedures)), cells[1]],
            }[name]
            lines.append(" ".join([name] + words))
        lines.append("ret " + cell(g, l))
    return "cells %d %d\n" % (g, l) + "".join(line + "\n" for line in lines)


def random_walk(program, problem):
    move = RANDOM.choice(starts(program))
    words = [word_of(*move)]
    for _ in range(RANDOM.randint(0, 24)):
        onward = successors(program, problem, move[1])
        if not onward:
            break
        deep = [m for m in onward if m[0] in (4, 5)]
        move = RANDOM.choice(deep if deep and RANDOM.random() < 0.6 else onward)
        words.append(word_of(*move))
    return words


def returns(words):
    return sum(word >> 29 == 5 for word in words)


def damage(words):
    place = RANDOM.randrange(len(words))
    how = RANDOM.randrange(6)
    if how == 0:
        words[place] ^= 1 << RANDOM.randrange(32)
    elif how == 1:
        words[place] ^= 1 << RANDOM.randrange(13, 19)
    elif how == 2:
        words[place] = words[place] & 0x1FFFFFFF | RANDOM.randrange(8) << 29
    elif how == 3:
        del words[place]
    elif how == 4:
        words.insert(place, words[place])
    else:
        words[place] ^= RANDOM.randrange(1, 4) << 19


def main():
    for n in range(1, 121):
        text = random_listing()
        problem = RANDOM.choice(["unset", "raw"])
        walks = [random_walk(Program(text), problem) for _ in range(30)]
        words = max(walks, key=returns) if n % 4 else walks[0]
        if n == 120:
            words = []
        elif RANDOM.random() < 0.6:
            damage(words)
        name = os.path.join(sys.argv[1], "%03d" % n)
        with open(name + ".txt", "w") as out:
            out.write(text)
        with open(name + ".trail", "w") as out:
            out.write("".join(w + "\n" for w in [problem] + ["%08X" % w for w in words]))


if __name__ == "__main__":
    main()
