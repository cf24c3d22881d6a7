#!/usr/bin/env python3
"""rebuild.py [PROGRAM]: times BUILDs after small edits beside the first BUILD of the same workspace, and prints the ratios with their limits.

A workspace of 100 units of 300 lines each: a line of one unit gets other tokens; a line gets another comment and the same tokens; nothing is
edited. One of 999 units of 30 lines each: a line of one unit gets other tokens. One of 100 units that include one member of 1,000 lines each: a
line of that member gets other tokens, so that all units are expanded and compiled anew. After each BUILD it is seen by LEDGER that just the units
that had to be were expanded and compiled. A time is the program's processor time where /proc tells it, else that of the clock; of the first
BUILDs of three sessions, and of the five rebuilds in each, the least counts. The status is 0 where all ratios are within their limits.
"""
import subprocess
import sys
import time
from pathlib import Path

SESSIONS, REBUILDS = 3, 5


class Workbench:
    """A session that is still going on."""

    def __init__(self, program):
        self.process = subprocess.Popen(program, stdin=subprocess.PIPE, stdout=subprocess.PIPE)

    def seconds(self):
        """The processor time that the program has taken so far, or the time of the clock."""
        try:
            return int(Path(f"/proc/{self.process.pid}/schedstat").read_text().split()[0]) / 1e9
        except OSError:
            return time.perf_counter()

    def put(self, lines):
        self.process.stdin.write("".join(line + "\n" for line in lines).encode())
        self.process.stdin.flush()

    def answer(self):
        return self.process.stdout.readline().decode().rstrip("\n")

    def edit(self, commands):
        """Commands that are answered OK."""
        for at in range(0, len(commands), 200):
            some = commands[at : at + 200]
            self.put(some)
            for command in some:
                answer = self.answer()
                assert answer == "OK", (command, answer)

    def build(self, expanded, compiled):
        """The time of a BUILD that gives a module, and expands and compiles so many units."""
        begin = self.seconds()
        self.put(["BUILD"])
        answer = self.answer()
        end = self.seconds()
        assert answer == "BUILT", answer
        self.put(["LEDGER"])
        answer = self.answer()
        assert answer == f"EXPANDED {expanded} COMPILED {compiled}", answer
        return end - begin

    def quit(self):
        self.put(["QUIT"])
        self.process.stdin.close()
        self.process.wait()


def member(name, lines, kind="SOURCE"):
    """The commands that type a member of these lines."""
    return [f"ADD {name} {kind}", *[f"INSERT {name} {number} {line}" for number, line in enumerate(lines)]]


# The statements of a unit; @ stands for the next one.
STATEMENTS = (
    "X = MOD(X * 7 + Y, 1000);",
    "A(I + 3) = A(J) + X;",
    "S = SUBSTR(T, J, 4) || '-';",
    "IF X > Y THEN Y = X - 1; ELSE Y = Y - 1;",
    "DO I = 1 TO 10; A(I) = A(I) + I * 2; END;",
    "CALL @(X + Y); /* goes on */",
    "TOTAL = TOTAL + X;",
    "NAMES(J) = S;",
)


def unit(name, following, count):
    """A unit of so many lines, with variables and a procedure that other units have too."""
    declared = [
        f"{name}: PROC(Z);",
        "DCL Z FIXED BIN(31);",
        "DCL (X, Y) FIXED BIN(31), (I, J) FIXED BIN(15), A(100) FIXED BIN(31);",
        "DCL S CHAR(20) VAR, T CHAR(10) INIT('ABCDEFGHIJ');",
        "DCL TOTAL FIXED BIN(31) EXT, NAMES(10) CHAR(8) EXT;",
        f"DCL {following} ENTRY(FIXED BIN(31));",
        "/* begins */ X = Z;",
    ]
    statements = [STATEMENTS[number % len(STATEMENTS)].replace("@", following) for number in range(count - len(declared) - 1)]
    return [*declared, *statements, f"END {name};"]


def main_unit():
    return member("MAIN", ["MAIN: PROC OPTIONS(MAIN);", "DCL U0 ENTRY(FIXED BIN(31));", "CALL U0(1);", "END MAIN;"])


def units(count, lines):
    """The commands that type a workspace of so many units, the main one among them."""
    names = [f"U{number}" for number in range(count - 1)]
    typed = [member(name, unit(name, names[(at + 1) % len(names)], lines)) for at, name in enumerate(names)]
    return [command for commands in typed for command in commands] + main_unit()


def including(count, lines):
    """The same of units that include one member of so many lines, and have little else."""
    typed = member("K", ["X = Y;"] * lines, "INCLUDE")
    for number in range(count - 1):
        typed += member(f"U{number}", [f"U{number}: PROC(Z);", "DCL Z FIXED BIN(31);", "DCL (X, Y) FIXED BIN(31);", "%INCLUDE K;", "END;"])
    return typed + member("MAIN", ["MAIN: PROC OPTIONS(MAIN);", "DCL U0 ENTRY(FIXED BIN(31)), (X, Y) FIXED BIN(31);", "CALL U0(1);", "%INCLUDE K;", "END;"])


def no_edit(_turn):
    return []


def edit_of(name, line, text):
    """What gives a line of a member another text at each turn, which stands for @."""
    return lambda turn: [f"REPLACE {name} {line} {text.replace('@', str(turn + 2))}"]


def workspaces():
    """Workspaces, each with how many units it has and with the edits after which it is built again: what is edited, the commands, how many units
    are then expanded and compiled, and the greatest ratio."""
    one = (
        ("a line of one", edit_of("U50", 20, "X = MOD(X * @ + Y, 1000);"), 1, 1, 0.02),
        ("a comment alone", edit_of("U50", 7, "/* begins @ */ X = Z;"), 1, 0, 0.01),
        ("nothing", no_edit, 0, 0, 0.003),
    )
    yield "100 units of 300 lines", 100, units(100, 300), one
    yield "999 units of 30 lines", 999, units(999, 30), (("a line of one", edit_of("U500", 20, "X = MOD(X * @ + Y, 1000);"), 1, 1, 0.01),)
    yield "100 units that include 1,000 lines", 100, including(100, 1000), (("a line of the member", edit_of("K", 500, "X = @;"), 100, 100, 1.05),)


def measure(program, count, typed, edits):
    """The least time of a first BUILD, and for each of the edits that of a BUILD after it."""
    first, again = [], [[] for _ in edits]
    for session in range(SESSIONS):
        workbench = Workbench(program)
        workbench.edit(typed)
        first.append(workbench.build(count, count))
        for times, (_, edit, expanded, compiled, _) in zip(again, edits):
            for turn in range(REBUILDS):
                workbench.edit(edit(session * REBUILDS + turn))
                times.append(workbench.build(expanded, compiled))
        workbench.quit()
    return min(first), [min(times) for times in again]


def main():
    program = sys.argv[1:] or [str(Path(__file__).resolve().parent.parent / "bin" / "pliwb"), "--proved"]
    all_within = True
    print(f"{'workspace':36} {'edited':22} {'first':>10} {'again':>10} {'ratio':>9} {'limit':>8}")
    for title, count, typed, edits in workspaces():
        first, again = measure(program, count, typed, edits)
        for (edited, _, _, _, limit), seconds in zip(edits, again):
            ratio = seconds / first
            all_within &= ratio <= limit
            said = "" if ratio <= limit else "  over"
            print(f"{title:36} {edited:22} {first * 1000:8.1f}ms {seconds * 1000:8.2f}ms {ratio:9.3%} {limit:8.1%}{said}", flush=True)
    sys.exit(not all_within)


if __name__ == "__main__":
    main()
