"""A workbench for tests: the program that the variable PLIWB names, else the second opinion (second.py)."""
import os
import re
import subprocess
from pathlib import Path

TOP = Path(__file__).resolve().parents[2]
PROGRAM = os.environ.get("PLIWB")
SECOND = str(TOP / "tools" / "tests" / "second.py")
LAST_LINE = re.compile(r"OK|BUILT|NOT BUILT|ENDED|OUT OF STEPS|ERROR E\d+ .*|MACHINE FAULT|NO MEMORY|[MB]\d [A-Z ]+")


def cleared(session):
    """A session and the commands that delete what it added."""
    added = [command.split()[1] for command in session if re.fullmatch(r"ADD \S+ \S+", command)]
    return [*session, *(f"DELETE {name}" for name in dict.fromkeys(added))]


def answered(sessions):
    """The answers to sessions, each from an empty workbench: a list of lines for each command."""
    given = "".join(command + "\n" for session in sessions for command in cleared(session))
    ended = subprocess.run([PROGRAM or SECOND], input=given.encode("latin-1"), stdout=subprocess.PIPE, check=True)
    lines = iter(ended.stdout.decode("latin-1").split("\n"))
    for session in sessions:
        answers = []
        for _ in cleared(session):
            answer = [next(lines)]
            while not LAST_LINE.fullmatch(answer[-1]):
                answer.append(next(lines))
            answers.append(answer)
        yield answers[: len(session)]
