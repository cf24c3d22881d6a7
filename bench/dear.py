#!/usr/bin/env python3
"""dear.py [CRATE..] [--most N]: which functions make the proofs of these crates dear (all crates, if none is named), after `rt check` of them here.

What a check keeps of a function is a few files whose sizes go with the time that they took: about 1.5 processor seconds a megabyte. They are
the same on every machine, busy or not. A line for each crate: its megabytes in all, and those of borrows and drops; then its N dearest parts (5).
"""
import sys
from pathlib import Path

TOP = Path(__file__).resolve().parent.parent


def parts(crate):
    """What is kept of the crate's proofs: sizes in megabytes, with names without the crate's."""
    kept = sorted((TOP / "crates" / crate / "out" / "incremental").glob("*/*.oantt"))
    return [(file.stat().st_size / 1e6, file.stem.removeprefix(f"Rattle-{crate}-")) for file in kept]


def main():
    words, most = sys.argv[1:], 5
    if "--most" in words:
        at = words.index("--most")
        most = int(words[at + 1])
        del words[at : at + 2]
    for crate in words or sorted(each.name for each in (TOP / "crates").iterdir()):
        found = parts(crate)
        if not found:
            continue
        borrows = sum(size for size, name in found if ".Lts" in name)
        print(f"{crate}: {sum(size for size, _ in found):.0f} MB, {borrows:.0f} of them borrows and drops")
        for size, name in sorted(found, reverse=True)[:most]:
            print(f"    {size:6.2f}  {name}")


main()
