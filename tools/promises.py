#!/usr/bin/env python3
"""Lists the public functions of crates/*/src that have a `requires`, and those that have no `ensures`.

usage: python3 tools/promises.py

Public is a `pub fn` that is no method of a type of the crate's own, and a method of a public trait. The status is 1 where a public
function other than `begin` of `report` has a `requires`.
"""
import pathlib
import re
import sys

ALLOWED = {("report", "begin")}
FUNCTION = re.compile(r'^(\s*)(pub (?:const )?(?:extern "C" )?)?fn (\w+)')
BLOCK = re.compile(r"^(?:pub )?(impl|trait)\b(?:<[^{]*?>)?\s+(?:.*\bfor\s+)?(\w+)")


def public_names(crate):
    """The types and traits that the crate declares public."""
    text = "\n".join(path.read_text() for path in sorted(crate.glob("src/**/*.rt")))
    return set(re.findall(r"^pub (?:struct|enum|trait|type) (\w+)", text, re.M))


def functions(path, public):
    """The public functions of a file: name, line, and which clauses they have."""
    lines = path.read_text().splitlines()
    block = None
    for number, line in enumerate(lines):
        if line and not line[0].isspace():
            found = BLOCK.match(line)
            block = (found.group(1), found.group(2)) if found else None
        found = FUNCTION.match(line)
        if not found:
            continue
        indent, visible, name = found.groups()
        if indent and (block is None or block[1] not in public):
            continue
        if not visible and not (block and block[0] == "trait"):
            continue
        clauses = set()
        for later in lines[number + 1 :]:
            word = later.strip().split(" ", 1)[0].rstrip("*")
            if word in ("requires", "ensures"):
                clauses.add(word)
            elif FUNCTION.match(later) or later == indent + "{" or later == indent + "}":
                break
        yield name, number + 1, clauses


def main():
    root = pathlib.Path(__file__).resolve().parent.parent
    asking, silent, count = [], [], 0
    for crate in sorted(path for path in (root / "crates").iterdir() if (path / "src").is_dir()):
        public = public_names(crate)
        for path in sorted(crate.glob("src/**/*.rt")):
            for name, line, clauses in functions(path, public):
                count += 1
                place = f"{path.relative_to(root)}:{line} {name}"
                if "requires" in clauses:
                    asking.append(((crate.name, name), place))
                if "ensures" not in clauses:
                    silent.append(place)
    print(f"{count} public functions")
    print(f"{len(asking)} with a `requires`")
    for _, place in asking:
        print(f"  {place}")
    print(f"{len(silent)} with no `ensures`")
    for place in silent:
        print(f"  {place}")
    return 0 if {key for key, _ in asking} <= ALLOWED else 1


if __name__ == "__main__":
    sys.exit(main())
