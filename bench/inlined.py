#!/usr/bin/env python3
"""inlined.py [PROGRAM]: lists the functions marked `inline(always)` that a program calls all the same.

PROGRAM is the program itself, not a script; left out, it is crates/pliwb/out/pliwb, which bin/prove builds. The compiler
drops the mark, with no message, from a function that would grow very large; then `nm` shows a symbol for it. A line tells
the bytes of its code and its name. A function that the mark is dropped from and that is put into its one caller all the
same is not listed.
"""
import re
import subprocess
import sys
from pathlib import Path

TOP = Path(__file__).resolve().parent.parent


def marked(top):
    """The functions that are marked: their crates, their modules or the types that they belong to, and their names."""
    found = set()
    for file in top.glob("crates/*/src/**/*.rt"):
        crate, inline, owner = file.relative_to(top).parts[1], False, file.stem
        for line in file.read_text().splitlines():
            if impl := re.match(r"impl(?:<[^>]*>)? (?:.* for )?(\w+)", line):
                owner = impl[1]
            elif line.startswith("}"):
                owner = file.stem
            elif line.strip().startswith("#[inline"):
                inline = "always" in line
            elif name := re.match(r"\s*(?:pub(?:\([a-z]+\))? )?(?:const )?(?:unsafe )?fn (\w+)", line):
                if inline:
                    found.add((crate, owner, name[1]))
                inline = False
    return found


def called(top, program):
    """The bytes and the names of the marked functions that have a symbol in a program."""
    names = marked(top)
    listed = subprocess.run(["nm", "-S", "-C", program], capture_output=True, text=True, check=True).stdout
    for row in (line.split(maxsplit=3) for line in listed.splitlines()):
        if len(row) == 4:
            parts = re.sub(r"::<.*$", "", row[3]).split("::")
            if len(parts) > 2 and (parts[0], parts[-2], parts[-1]) in names:
                yield int(row[1], 16), row[3]


if __name__ == "__main__":
    given = sys.argv[1] if len(sys.argv) > 1 else str(TOP / "crates" / "pliwb" / "out" / "pliwb")
    for size, name in sorted(called(TOP, given), reverse=True):
        print(f"{size:6} {name}")
