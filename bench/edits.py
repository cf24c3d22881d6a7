#!/usr/bin/env python3
"""edits.py [CRATE..]: tries the must-fail edits that the gate leaves out (bench/edits/CRATE), with those that it tries, by `rt must-fail`; of each crate that
has any, if none is named.

They are put into crates/CRATE/must-fail as long as that takes, and an edit that stands there already stays. The status is that of `rt must-fail`.
A crate's first edit costs its whole proof, and the libraries below it are built first: minutes for most crates, two hours for all.
"""
import shutil
import subprocess
import sys
from pathlib import Path

TOP = Path(__file__).resolve().parent.parent
LEFT_OUT = TOP / "bench" / "edits"


def put(crate):
    """Puts the crate's edits beside those that the gate tries; what was put, folders after what stands in them."""
    folder = TOP / "crates" / crate / "must-fail"
    made = [] if folder.is_dir() else [folder]
    folder.mkdir(exist_ok=True)
    for edit in sorted((LEFT_OUT / crate).glob("*.edit")):
        to = folder / edit.name
        if not to.exists():
            shutil.copy(edit, to)
            made.insert(0, to)
    return made


def main():
    crates = sys.argv[1:] or sorted(each.name for each in LEFT_OUT.iterdir())
    unknown = [crate for crate in crates if not (LEFT_OUT / crate).is_dir()]
    if unknown:
        sys.exit(f"edits.py: the gate leaves out no edit of {', '.join(unknown)}\n\n{__doc__}")
    made = []
    try:
        for crate in crates:
            made += put(crate)
        status = subprocess.call(["rt", "must-fail", *crates], cwd=TOP)
    finally:
        for path in made:
            path.rmdir() if path.is_dir() else path.unlink()
    sys.exit(status)


main()
