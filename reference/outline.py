"""Reads a listing from standard input and prints its outline, or why it is refused."""

import re
import sys

NUMBER = rb"(0|[1-9][0-9]{0,3})"  # one to four digits, no leading zero except 0 itself
CELL = rb"([gl](?:0|[1-9][0-9]{0,3}))"  # g or l, followed at once by a number

# The words after each operation: c is a cell, k a point, p a procedure.
OPERANDS = {
    b"set": "c",
    b"move": "cc",
    b"add": "ccc",
    b"read": "c",
    b"send": "c",
    b"goto": "k",
    b"test": "ck",
    b"call": "cpc",
    b"ret": "c",
    b"trim": "cc",
}


def form(operation, operands):
    words = [CELL if kind == "c" else NUMBER for kind in operands]
    return re.compile(b" ".join([operation] + words))


HEADER = form(b"cells", "kk")
FORMS = {operation: form(operation, kinds) for operation, kinds in OPERANDS.items()}


class Refused(Exception):
    pass


def require(answer, question, place):
    if not answer:
        raise Refused("refused %d at %d\n" % (question, place))


class Statement:
    def __init__(self, operation, words):
        pairs = list(zip(OPERANDS[operation], words))
        self.operation = operation
        self.cells = [(word[:1], int(word[1:])) for kind, word in pairs if kind == "c"]
        self.points = [int(word) for kind, word in pairs if kind == "k"]
        self.callees = [int(word) for kind, word in pairs if kind == "p"]


def parse_statement(line):
    """The statement written on the line, or None if the line has no form."""
    operation = line.split(b" ")[0]
    if operation not in FORMS:
        return None
    match = FORMS[operation].fullmatch(line)
    return Statement(operation, match.groups()) if match else None


def outline(text):
    # 1. The text is 1 to 32768 bytes.
    require(1 <= len(text) <= 32768, 1, 0)

    # 2. Each line has its form and its LF. Only LF ends a line, so what is left
    # after the last LF, if anything, is a line without its LF.
    *lines, rest = text.split(b"\n")
    header = None
    statements = []
    for number, line in enumerate(lines, 1):
        if number == 1:
            header = HEADER.fullmatch(line)
            require(header, 2, number)
        else:
            statement = parse_statement(line)
            require(statement, 2, number)
            statements.append(statement)
    require(rest == b"", 2, len(lines) + 1)

    # 3. There are 0 to 31 globals and 1 to 32 locals.
    global_count, local_count = int(header[1]), int(header[2])
    require(global_count <= 31 and 1 <= local_count <= 32, 3, 1)

    # 4. There are 1 to 1000 statements.
    count = len(statements)
    require(1 <= count <= 1000, 4, 0)

    # 5. The last statement is a ret. (Statement n is on line n + 2.)
    require(statements[-1].operation == b"ret", 5, count + 1)

    # 6. There is no 61st ret.
    exits = [n for n, s in enumerate(statements) if s.operation == b"ret"]
    for p, n in enumerate(exits):
        require(p < 60, 6, n + 2)

    # 7. Every cell is one of the program's.
    size = {b"g": global_count, b"l": local_count}
    for n, s in enumerate(statements):
        require(all(index < size[letter] for letter, index in s.cells), 7, n + 2)

    # A procedure runs from just after the ret before it to its own ret.
    entries = [0] + [n + 1 for n in exits[:-1]]
    procedures = list(zip(entries, exits))

    # 8. Each goto and test stays in its procedure.
    for entry, exit_ in procedures:
        for n in range(entry, exit_ + 1):
            require(all(entry <= k <= exit_ for k in statements[n].points), 8, n + 2)

    # 9. Each called procedure exists.
    for n, s in enumerate(statements):
        require(all(p < len(procedures) for p in s.callees), 9, n + 2)

    report = "globals %d locals %d statements %d procedures %d\n" % (
        global_count, local_count, count, len(procedures))
    for p, (entry, exit_) in enumerate(procedures):
        body = statements[entry : exit_ + 1]
        calls = sum(s.operation == b"call" for s in body)
        report += "procedure %d entry %d exit %d statements %d calls %d\n" % (
            p, entry, exit_, len(body), calls)
    return report


def main():
    try:
        report = outline(sys.stdin.buffer.read())
    except Refused as refusal:
        report = str(refusal)
    sys.stdout.buffer.write(report.encode("ascii"))


if __name__ == "__main__":
    main()
