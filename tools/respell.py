#!/usr/bin/env python3
"""Respells this repository's own definitions and lemmas, once: words in snake case, types in camel case.

usage: python3 tools/respell.py          at the top of the repository, after port.py
       python3 tools/respell.py --list   prints each old name with its new one, and what would fall together; writes nothing

A name is respelled where specs/ or proofs/ declares it with a dash (a goal's answer keeps its name: Rattle makes it).
In .rt files and edits only clauses and imports have such names, since no name of Rust has a dash; text in quotes and comments stay.
"""

import collections
import os
import re
import sys

WORD = re.compile(r"[^\s(){}\[\].,;:|]+")
HEAD = re.compile(r"^(\s*)((?:(?:abbrev|unfoldable|pub)\s+)*)((?:[^\s(){}.,;:=|]+\s+)+):\s+(\S.*)?$")
KIND = re.compile(r"^\s*(?:(?:abbrev|unfoldable|pub)\s+)*(record|data)\s+(?:pub\s+)?([^\s(){}]+)")
# lowercase names of facts
TYPES = {"counted-in": "CountedIn", "over-counted": "OverCounted"}


def files(suffixes):
    for folder, dirs, names in os.walk("crates"):
        dirs[:] = sorted(d for d in dirs if d not in ("out", "data"))
        for name in sorted(names):
            if name.endswith(suffixes):
                yield os.path.join(folder, name)


def declared():
    """Each declared name with a dash."""
    found = set()
    for path in files((".antt",)):
        with open(path, encoding="utf-8") as f:
            for line in f:
                if line.lstrip().startswith("--"):
                    continue
                kind = KIND.match(line)
                if kind:
                    found.add(kind.group(2))
                    continue
                head = HEAD.match(line.rstrip("\n"))
                if head and not (head.group(4) or "").startswith(("goal.", "given.")):
                    found.update(head.group(3).split())
    return {n for n in found if "-" in n.strip("-") and re.match(r"[A-Za-z]", n)}


def spelling(name):
    if name in TYPES:
        return TYPES[name]
    parts = name.split("-")
    if parts[0][0].isupper():
        return "".join(p[:1].upper() + p[1:] for p in parts)
    return "_".join(parts)


def answers():
    """Names of goals, which Rattle makes."""
    made = set()
    for path in files((".antt",)):
        with open(path, encoding="utf-8") as f:
            for line in f:
                m = re.match(r"^\s*(?:(?:abbrev|pub)\s+)*(\S+)\s+:\s+(?:goal|given)\.", line)
                if m:
                    made.add(m.group(1))
    return made


def turned(line, names, by_rattle, comment):
    """The line; its comment, its text in quotes, and where by_rattle the steps of a goal's record are left alone."""
    at = line.find(comment)
    body, rest = (line, "") if at < 0 else (line[:at], line[at:])
    parts = re.split(r'("(?:[^"\\]|\\.)*")', body)
    for i in range(0, len(parts), 2):
        text = parts[i]

        def one(m):
            word = m.group(0)
            if word not in names:
                return word
            step = by_rattle and re.search(r"(?:^|[\s(])c\.$", text[: m.start()])
            return word if step else names[word]

        parts[i] = WORD.sub(one, text)
    return "".join(parts) + rest


def main():
    found = declared()
    made = answers()
    names = {n: spelling(n) for n in found if n not in made}
    if "--list" in sys.argv:
        words = collections.Counter()
        for path in files((".antt", ".rt")):
            with open(path, encoding="utf-8") as f:
                words.update(WORD.findall(f.read()))
        for n in sorted(names):
            print(n, names[n], "FALLS TOGETHER" if words[names[n]] else "")
        return
    for path in files((".antt", ".rt", ".edit")):
        by_rattle = path.endswith(("Answers.antt", "Invariants.antt", "Choices.antt"))
        comment = "--" if path.endswith(".antt") else "//"
        with open(path, encoding="utf-8") as f:
            old = f.read()
        new = "".join(turned(line, names, by_rattle, comment) for line in old.splitlines(keepends=True))
        if new != old:
            with open(path, "w", encoding="utf-8") as f:
                f.write(new)


main()
