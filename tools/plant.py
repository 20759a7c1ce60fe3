#!/usr/bin/env python3
"""Plants bugs one at a time in a fresh copy of the repository, and prints what kills each.

usage: python3 tools/plant.py [--crate NAME].. [--label LABEL].. [--markdown FILE] [LIST]

LIST, tools/planted.txt by default, has a paragraph for each bug: its crate, a label, the file, an old text that stands there
once and the new text (more than one such pair, if need be), and what the bug is. A line `compared:` says that the
comparison under bench/ would show the bug; it is not run here.

Each bug of a library is first a must-fail edit of its crate. What is still proved is then put into the copy, and so is a bug
of a program that has no contract of its own: each program of the repository that stands on the crate is built and
held to its expected output, and its tests are run.
"""

import argparse
import collections
import os
import re
import shutil
import subprocess
import sys
import tempfile

TOP = os.path.dirname(os.path.dirname(os.path.abspath(__file__)))
SECONDS = 120

KILLED, SURVIVED, COMPARED, NO_BUG = "killed", "survived", "compared", "does not compile"


class Bug:
    def __init__(self, crate, label):
        self.crate, self.label = crate, label
        self.file, self.what, self.compared, self.pairs = "", "", False, []

    def edit(self):
        """The bug as a must-fail edit."""
        pairs = "".join(f"old: {old}\nnew: {new}\n" for old, new in self.pairs)
        return f"file: {self.file}\n{pairs}"

    def apply(self, text):
        for old, new in self.pairs:
            if text.count(old) != 1:
                raise ValueError(f"{self.crate} {self.label}: {old!r} stands {text.count(old)} times in {self.file}")
            text = text.replace(old, new)
        return text


def bugs_of(path):
    """The bugs of a list, in its order."""
    bugs, crate, bug, old = [], "", None, ""
    with open(path, encoding="utf-8") as lines:
        for number, line in enumerate(lines, 1):
            line = line.rstrip("\n")
            if not line or line.startswith("#"):
                continue
            word, _, rest = line.partition(":")
            rest = rest.removeprefix(" ")
            if word == "crate":
                crate = rest
            elif word == "label":
                bug = Bug(crate, rest)
                bugs.append(bug)
            elif bug and word in ("file", "what"):
                setattr(bug, word, rest)
            elif bug and word == "old":
                old = rest
            elif bug and word == "new":
                bug.pairs.append((old, rest))
            elif bug and word == "compared":
                bug.compared = True
            else:
                sys.exit(f"{path}:{number}: {line!r} is no line of a bug")
    named = collections.Counter((bug.crate, bug.label) for bug in bugs)
    for (crate, label), times in named.items():
        if times > 1:
            sys.exit(f"{path}: {crate} has {times} bugs of the label {label}")
    return bugs


def copied(room):
    """A copy of what the repository holds, and of nothing that was made from it."""
    copy = os.path.join(room, "copy")
    shutil.copytree(TOP, copy, ignore=shutil.ignore_patterns(".git", "out", "target"))
    return copy


def function_at(text, line):
    """The function that a line of a text stands in."""
    lines = text.split("\n")
    while line < len(lines) and lines[line - 1].lstrip().startswith("#["):
        line += 1
    for at in range(min(line, len(lines)) - 1, -1, -1):
        found = re.match(r"\s*(?:pub(?:\(crate\))? )?(?:extern \"C\" )?fn (\w+)", lines[at])
        if found:
            return found[1]
    return ""


def clause_of(said):
    """What of a contract a refusal names, in a few words."""
    goal = re.search(r"\(`([^`]*)`?", said)
    named = re.search(r"clause-(\w+)", goal[1]) if goal else None
    if "what the function ensures" in said:
        return f"ensures {named[1]}" if named else "ensures"
    if goal and re.search(r"-requires", goal[1]):
        return f"requires of {re.sub(r'-requires.*', '', goal[1]).split('-')[-1]}"
    said = re.sub(r"\s*\(`.*|; .*", "", said)
    said = re.sub(r"^(it is )?not proved( that|:)?\s*", "", said.removeprefix("error: "))
    return said[:70].strip()


def place_of(bug, said, texts):
    """Where a refusal stands, and what it names. A place in a proof file says only that the file no longer fits."""
    found = re.match(r"(?:note: )?(?:\./)?((src|specs|proofs)/[^:\s]+):(\d+):\d+: (.*)", said)
    if not found:
        return said[:100]
    path, folder, line, rest = found[1], found[2], int(found[3]), found[4]
    if folder == "proofs":
        return f"{path}:{line} (a proof file)"
    name = function_at(texts.get(path, ""), line)
    return " ".join(it for it in (f"{path}:{line}", name, clause_of(rest)) if it)


def texts_of(copy, bug):
    """The crate's sources with the bug in them, by their paths in the crate."""
    folder = os.path.join(copy, "crates", bug.crate)
    texts = {}
    for at, _, names in os.walk(os.path.join(folder, "src")):
        for name in names:
            path = os.path.join(at, name)
            with open(path, encoding="utf-8") as it:
                texts[os.path.relpath(path, folder)] = it.read()
    texts[bug.file] = bug.apply(texts[bug.file])
    return texts


def prove(copy, crate, bugs):
    """What the prover says of each bug of a crate: an outcome and what killed it, by label."""
    folder = os.path.join(copy, "crates", crate, "must-fail")
    shutil.rmtree(folder, ignore_errors=True)
    os.mkdir(folder)
    for bug in bugs:
        with open(os.path.join(folder, f"{bug.label}.edit"), "w", encoding="utf-8") as it:
            it.write(bug.edit())
    ran = subprocess.run(["rt", "must-fail", crate], cwd=copy, stdout=subprocess.PIPE, stderr=subprocess.STDOUT, text=True)
    said = dict(re.findall(rf"must-fail {crate}/([^/]+)\.edit: (.*)", ran.stdout))
    told = {}
    for bug in bugs:
        line = said.get(bug.label, "")
        if "NOT REFUSED" in line:
            told[bug.label] = SURVIVED, ""
        elif line.startswith("refused, as it must be"):
            limit = " (a limit of the prover)" if "only by a limit" in line else ""
            only = "only because a proof file" in line
            first = re.sub(r"^refused, as it must be(?: \(only.*?\))?:? ?", "", line)
            place = "a proof file names what the bug took away" if only else place_of(bug, first, texts_of(copy, bug))
            told[bug.label] = KILLED, place + limit
        elif "BAD EDIT" in line:
            told[bug.label] = NO_BUG, line.partition("BAD EDIT: ")[2][:160]
        else:
            told[bug.label] = NO_BUG, f"no answer: {line[:160] or ran.stdout[-300:]}"
    return told


def standing():
    """What each crate of crates.txt stands on, directly or not."""
    direct = {}
    with open(os.path.join(TOP, "crates.txt"), encoding="utf-8") as lines:
        for line in lines:
            name, colon, deps = line.partition("#")[0].partition(":")
            if colon:
                direct[name.split()[0]] = deps.split()

    def below(name):
        found = set()
        for dep in direct.get(name, []):
            found |= {dep} | below(dep)
        return found

    return {name: below(name) for name in direct}


def is_program(crate):
    return os.path.isfile(os.path.join(TOP, "crates", crate, "src", "main.rt"))


def has_contract(crate):
    """Whether a crate promises anything: a library does, and a program that has a proof."""
    return not is_program(crate) or os.path.isdir(os.path.join(TOP, "crates", crate, "proofs"))


def programs_over(crate):
    """The programs that stand on a crate, and the crate itself if it is one."""
    return [name for name, below in standing().items() if (name == crate or crate in below) and is_program(name)]


def read(path):
    try:
        with open(path, "rb") as it:
            return it.read()
    except FileNotFoundError:
        return b""


def runs_well(copy, program):
    """Whether a program, built from the copy, writes what its file stdout has; none where it is not built."""
    folder = os.path.join(copy, "crates", program)
    subprocess.run(["rt", "run"], cwd=folder, stdin=subprocess.DEVNULL, stdout=subprocess.DEVNULL, stderr=subprocess.DEVNULL)
    built = os.path.join(folder, "out", program)
    if not os.path.isfile(built):
        return None
    with tempfile.TemporaryDirectory() as room:
        data = os.path.join(folder, "data")
        if os.path.isdir(data):
            shutil.copytree(data, room, dirs_exist_ok=True)
        args = read(os.path.join(folder, "args")).decode().split("\n")
        try:
            ran = subprocess.run(
                [built, *(args[:-1] if args[-1] == "" else args)],
                cwd=room,
                input=read(os.path.join(folder, "stdin")),
                stdout=subprocess.PIPE,
                stderr=subprocess.DEVNULL,
                timeout=SECONDS,
            )
        except subprocess.TimeoutExpired:
            return False
    wanted = int(read(os.path.join(folder, "status")) or 0)
    return ran.returncode == wanted and ran.stdout == read(os.path.join(folder, "stdout"))


def failed_test(copy, program):
    """The first test of a program that fails, if it has tests and one fails."""
    folder = os.path.join(copy, "crates", program)
    if b"#[test]" not in read(os.path.join(folder, "src", "main.rt")):
        return ""
    ran = subprocess.run(["rt", "try", "--test"], cwd=folder, stdin=subprocess.DEVNULL, stdout=subprocess.PIPE, stderr=subprocess.STDOUT, text=True)
    if ran.returncode == 0:
        return ""
    found = re.search(r"test (\S+) \.\.\. FAILED", ran.stdout)
    return found[1] if found else "a test"


def test(copy, bug):
    """Which program's expected output a bug that is proved does not give, or which test it fails."""
    path = os.path.join(copy, "crates", bug.crate, bug.file)
    was = read(path)
    with open(path, "w", encoding="utf-8") as it:
        it.write(bug.apply(was.decode()))
    try:
        for program in programs_over(bug.crate):
            binary = os.path.join(copy, "crates", program, "out", program)
            if os.path.isfile(binary):
                os.remove(binary)
            well = runs_well(copy, program)
            if well is None:
                return KILLED, f"{program} is no longer proved"
            if not well:
                return KILLED, f"the output of `{program}`"
            failed = failed_test(copy, program)
            if failed:
                return KILLED, f"`{failed}` of `{program}`"
    finally:
        with open(path, "wb") as it:
            it.write(was)
    return SURVIVED, ""


def outcomes(bugs, tell):
    """Plants each bug; tells a bug with its outcome and what killed it, as soon as these are known."""
    by_crate = collections.OrderedDict()
    for bug in bugs:
        by_crate.setdefault(bug.crate, []).append(bug)
    with tempfile.TemporaryDirectory(prefix="plant-") as room:
        copy = copied(room)
        for crate, planted in by_crate.items():
            for bug in planted:
                bug.apply(read(os.path.join(copy, "crates", crate, bug.file)).decode())
            told = prove(copy, crate, planted) if has_contract(crate) else {}
            for bug in planted:
                outcome, by = told.get(bug.label, (SURVIVED, ""))
                if outcome == SURVIVED:
                    outcome, by = test(copy, bug)
                if outcome == SURVIVED and bug.compared:
                    outcome, by = COMPARED, "nothing here; the comparison under bench/ would show it"
                tell(bug, outcome, by)


def table(rows):
    lines = ["| Crate | Bug | Outcome | By |", "|---|---|---|---|"]
    for bug, outcome, by in sorted(rows, key=lambda row: row[0].crate):
        cells = (bug.crate, bug.what, outcome, by)
        lines.append("| " + " | ".join(cell.replace("|", "\\|") for cell in cells) + " |")
    return "\n".join(lines) + "\n"


def main():
    parser = argparse.ArgumentParser(description=__doc__, formatter_class=argparse.RawDescriptionHelpFormatter)
    parser.add_argument("--crate", action="append", default=[], help="only the bugs of this crate")
    parser.add_argument("--label", action="append", default=[], help="only the bugs of this label")
    parser.add_argument("--markdown", help="a file to write the table to")
    parser.add_argument("list", nargs="?", default=os.path.join(TOP, "tools", "planted.txt"))
    given = parser.parse_args()
    bugs = [
        bug
        for bug in bugs_of(given.list)
        if (not given.crate or bug.crate in given.crate) and (not given.label or bug.label in given.label)
    ]
    rows = []

    def tell(bug, outcome, by):
        rows.append((bug, outcome, by))
        print(f"{bug.crate} {bug.label}: {outcome}{': ' + by if by else ''}", flush=True)

    outcomes(bugs, tell)
    counts = collections.Counter(outcome for _, outcome, _ in rows)
    print(f"{len(rows)} bugs: " + ", ".join(f"{counts[it]} {it}" for it in (KILLED, SURVIVED, COMPARED, NO_BUG) if counts[it]))
    if given.markdown:
        with open(given.markdown, "w", encoding="utf-8") as it:
            it.write(table(rows))
    return 1 if counts[SURVIVED] or counts[NO_BUG] else 0


if __name__ == "__main__":
    sys.exit(main())
