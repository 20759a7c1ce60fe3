#!/usr/bin/env python3
"""Builds the static library `exports` and the C program over it, and holds what that prints to the expected sheets.

usage: python3 tools/c_example.py

The libraries below `exports` are taken as they stand in crates/*/out, where `rt ci` or `rt check` has made them, and otherwise made by
`rt lib`; `exports` itself is proved here again, as its archive is made. It needs the toolchain and cc, prints one line, and ends with a
status that is not 0 where something differs.
"""
import pathlib
import shutil
import subprocess
import sys
import tempfile

TOP = pathlib.Path(__file__).resolve().parent.parent
KIT = pathlib.Path(shutil.which("rt")).resolve().parent.parent
CRATE = "exports"


def uses():
    """What each crate uses, by crates.txt."""
    rows = (TOP / "crates.txt").read_text().splitlines()
    rows = [row.split(":") for row in rows if ":" in row and not row.startswith("#")]
    return {head.split()[0]: names.split() for head, names in rows}


def below(crate, used):
    """The repository's crates below a crate."""
    found = []
    for name in used[crate]:
        if name in used:
            found += [it for it in [*below(name, used), name] if it not in found]
    return found


def library(name):
    return TOP / "crates" / name / "out" / "rlib" / f"{name}.rlib"


def run(command, folder, log):
    """Runs a command; where it fails, tells its output and ends."""
    with open(log, "w", encoding="utf-8") as out:
        if subprocess.run(command, cwd=folder, stdout=out, stderr=subprocess.STDOUT, check=False).returncode == 0:
            return
    sys.exit(log.read_text(encoding="utf-8") + f"\nfailed: {command[0]}")


def build(archive, log):
    """Proves the static library over the libraries that stand there, and makes its archive."""
    used = uses()
    folder = TOP / "crates" / CRATE
    if not all(library(name).is_dir() for name in below(CRATE, used)):
        run(["rt", "lib"], folder, log)
        shutil.copy(folder / "out" / f"lib{CRATE}.a", archive)
        return
    command = [str(KIT / "bin" / "rattle"), "build", "--crate-name", CRATE, "src/lib.rt"]
    command += ["--extern", f"std={KIT}/rlibs/std.rlib", "-L", f"dependency={KIT}/rlibs"]
    for name in used[CRATE]:
        command += ["--extern", f"{name}={library(name)}"]
    for name in below(CRATE, used):
        command += ["-L", f"dependency={library(name).parent}"]
    command += ["--antt-project", f"{KIT}/rattle/logic/antt-project.json", "--logic-built", f"{KIT}/logic_built"]
    command += ["--jobs", "2", "--links", f"{CRATE}=", "--crate-type", "staticlib"]
    command += ["--toolchain", f"{KIT}/toolchain", "--backend", "llvm", "-o", str(archive)]
    run(command, folder, log)


def printed(program, listing):
    with open(listing, "rb") as it:
        return subprocess.run([program], stdin=it, stdout=subprocess.PIPE, check=True).stdout


def main():
    with tempfile.TemporaryDirectory() as work:
        work = pathlib.Path(work)
        archive, program, log = work / f"lib{CRATE}.a", work / "sheet", work / "log"
        build(archive, log)
        cc = ["cc", "-std=c11", "-Wall", "-Wextra", "-Werror", "-O2", "-Iinclude", "-o", str(program)]
        run([*cc, "examples/sheet.c", str(archive), f"{KIT}/c/liblibc_c.a"], TOP, log)
        if printed(program, TOP / "crates/sheet/stdin") != (TOP / "crates/sheet/stdout").read_bytes():
            sys.exit("c example: another sheet of crates/sheet/stdin")
        listings = sorted((TOP / "crates/sheets/data").glob("*.txt"))
        sheets = b"".join(it.stem.encode() + b"\n" + printed(program, it) for it in listings)
        if sheets != (TOP / "crates/sheets/stdout").read_bytes():
            sys.exit("c example: other sheets of crates/sheets/data")
        print(f"c example: {len(listings)} sheets as expected")


if __name__ == "__main__":
    main()
