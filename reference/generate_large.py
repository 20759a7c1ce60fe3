#!/usr/bin/env python3
"""Make the listings of crates/large, and what is to be told of them.

    generate_large.py FOLDER

writes into FOLDER/data a listing of 1,000 statements in their longest forms
(longest.txt), a listing whose calls are nested ten deep, two calls in each
procedure (nested.txt), and the trail of one of its pairs in words
(nested.trail); and into FOLDER/stdout what the program is to print.  What is
told comes from the separate programs of this folder (outline.py, portions.py
with its records, trail.py); a report and a trail are read off the records
here, by the rules.
"""

import random
import subprocess
import sys
from pathlib import Path

HERE = Path(__file__).resolve().parent
RETURN, CALL, START = 5, 4, 1


def run(program, listing, *arguments):
    """What a program of this folder prints of a listing."""
    command = [sys.executable, str(HERE / program), *arguments]
    return subprocess.run(command, input=listing, capture_output=True, check=True).stdout.decode()


def longest():
    """1,000 statements over 31 globals and 32 locals, in 60 procedures."""
    draw = random.Random(1000)

    def cell():
        return draw.choice([f"g{draw.randrange(10, 31)}", f"l{draw.randrange(10, 32)}"])

    lines = ["cells 31 32"]
    for procedure in range(60):
        size = 16 if procedure < 20 else 17
        first = len(lines) - 1
        for at in range(size - 1):
            form = draw.randrange(10)
            if form < 5:
                lines.append(f"add {cell()} {cell()} {cell()}")
            elif form < 7:
                lines.append(f"call {cell()} {draw.randrange(10, 60)} {cell()}")
            elif form < 8:
                lines.append(f"test {cell()} {first + draw.randrange(size)}")
            elif form < 9:
                lines.append(f"read {cell()}")
            else:
                lines.append(f"trim {cell()} {cell()}")
        lines.append(f"ret {cell()}")
    return "".join(line + "\n" for line in lines).encode()


def nested():
    """What procedure 0 reads comes back from two calls of the next procedure, and so on, ten deep."""
    lines = ["cells 1 1", "read g0"]
    for procedure in range(1, 11):
        lines += [f"call l0 {procedure} l0", f"call l0 {procedure} l0", "ret l0"]
    lines.append("ret l0")
    return "".join(line + "\n" for line in lines).encode()


def records_of(listing, problem):
    """The records of a tabulation, by cell: kind, first, second; and F."""
    records = {}
    for line in run("portions.py", listing, problem, "1000000", "oldest", "--records").splitlines():
        words = line.split()
        if words[0] == "cell":
            records[int(words[1])] = (int(words[5]), int(words[7]), int(words[9]))
    globals_, locals_ = (int(word) for word in listing.split(b"\n")[0].split()[1:])
    return records, globals_ + locals_ + 1


def report_of(listing, problem):
    """R and C of a report."""
    records, facts = records_of(listing, problem)
    pairs = {(cell // (facts * facts), cell % facts) for cell in records}
    return len(pairs), len(records)


def trail_of(listing, problem, point, fact):
    """The words of the trail of a pair, the start first."""
    records, facts = records_of(listing, problem)

    def number(n, a, d):
        return (n * facts + a) * facts + d

    cell = next(number(point, a, fact) for a in range(facts) if number(point, a, fact) in records)
    words, open_calls = [], []
    while cell is not None:
        kind, first, second = records[cell]
        if kind in (START, CALL) and open_calls:
            kind, before = CALL, open_calls.pop()
        elif kind == START:
            before = None
        elif kind == RETURN:
            open_calls.append(first)
            before = second
        else:
            before = first
        words.append(kind << 29 | cell // (facts * facts) << 19 | cell % facts << 13)
        cell = before
    return words[::-1]


def some_of(lines):
    """How many lines there are, and every 256th of them and the last."""
    shown = [line for at, line in enumerate(lines) if at % 256 == 0 or at == len(lines) - 1]
    return "".join(line + "\n" for line in [f"lines {len(lines)}", *shown])


def main():
    folder = Path(sys.argv[1])
    long, deep = longest(), nested()
    words = [f"{word:08x}" for word in trail_of(deep, "raw", 3, 1)]
    (folder / "data").mkdir(parents=True, exist_ok=True)
    (folder / "data" / "longest.txt").write_bytes(long)
    (folder / "data" / "nested.txt").write_bytes(deep)

    told = [run("outline.py", long)]
    for number, problem in enumerate(("unset", "raw"), 1):
        pairs, cells = report_of(long, problem)
        told.append(f"problem {number}\npairs {pairs} cells {cells}\n")
    told.append(run("portions.py", long, "unset", "10000", "newest"))
    (folder / "data" / "nested.trail").write_text("".join(word + "\n" for word in ["raw", *words]))
    moves = run("trail.py", b"", str(folder / "data" / "nested.txt"), str(folder / "data" / "nested.trail")).splitlines()
    statements = deep.decode().splitlines()[1:]
    lines = [f"{move}: {statements[int(move.split()[2])]}" for move in moves[:-1]]
    told.append(some_of(lines))
    told.append(some_of(moves))
    (folder / "stdout").write_text("".join(told))


if __name__ == "__main__":
    main()
