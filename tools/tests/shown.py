#!/usr/bin/env python3
"""shown.py: writes what bin/pli says today of the mistakes of docs/DIAGNOSTICS.md and of the programs of examples/.

It runs them over the workbench that PLIWB names, else over the second opinion. `git diff` shows what has changed.
"""
import re
import tempfile
from pathlib import Path

from examples import TOP
from test_examples import COURSE, EXAMPLES, told

PAGE = TOP / "docs" / "DIAGNOSTICS.md"
MISTAKE = re.compile(r"^(```mistake ([^\n]*)\n(.*?)```\n```says\n)(.*?)^```$", re.MULTILINE | re.DOTALL)


def said(found):
    """The blocks of a mistake with what is said of it."""
    words = found[2].split()
    with tempfile.TemporaryDirectory() as folder:
        Path(folder, words[0]).write_text(found[3])
        return f"{found[1]}{told((words, folder, False))[0]}```"


def written(path, text):
    """Keeps a text beside a program; none where there is nothing to keep."""
    if text:
        path.write_text(text)
    else:
        path.unlink(missing_ok=True)


if __name__ == "__main__":
    PAGE.write_text(MISTAKE.sub(said, PAGE.read_text(encoding="utf-8")), encoding="utf-8")
    for call in COURSE.findall((EXAMPLES / "README.md").read_text(encoding="utf-8")):
        words = [f"examples/{word}" if word.endswith(".pli") else word for word in call.split()]
        printed, wrong = told((words, TOP, True))
        written(TOP / words[0].replace(".pli", ".out"), printed)
        written(TOP / words[0].replace(".pli", ".err"), wrong)
