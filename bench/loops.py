#!/usr/bin/env python3
"""loops.py [PROGRAM]: counts the host's instructions for what a statement asks of the machine, on loops made for it.

PROGRAM is the program itself, not a script; left out, it is crates/pliwb/out/pliwb, which bin/prove builds. Each loop has
one statement, or none, and is run for few turns and for many under `valgrind --tool=callgrind`, so that what builds and
loads take is in both counts. Each line of the output tells what a statement takes more than others do.
"""
import re
import subprocess
import sys
from pathlib import Path

TOP = Path(__file__).resolve().parent.parent
FEW, MANY = 2000, 22000
PROGRAM = """M: PROC OPTIONS(MAIN);
DCL (I, J, K, L, S) FIXED BIN(31), A(9, 9) FIXED BIN(31), B(9) FIXED BIN(31);
DCL N FIXED BIN(31) CONTROLLED, 1 X BASED(Q), 2 V FIXED BIN(31), (P, Q) POINTER;
J = 7; L = 5; S = 3;
ALLOCATE N; ALLOCATE X;
DO I = 1 TO {turns}; {statement} END;
PUT LIST(I);
E: PROC; END E;
R: PROC(Y); DCL Y FIXED BIN(31); END R;
F: PROC(Y) RETURNS(FIXED BIN(31)); DCL Y FIXED BIN(31); RETURN(Y); END F;
END M;"""

# what a line tells; the statement that is counted; what is taken off, as statements or as lines told before
LINES = (
    ("a turn of a DO", "", ()),
    ("a step", ";", ("a turn of a DO",)),
    ("a store of a constant", "K = 5;", ("a turn of a DO", "a step")),
    ("a load", "K = J;", ("a turn of a DO", "a step", "a store of a constant")),
    ("an addition", "K = J + L;", ("{K = J;}", "a load")),
    ("a further load and addition", "K = J + L + S;", ("{K = J + L;}",)),
    ("an element read, beside its subscript", "K = B(J);", ("{K = J;}",)),
    ("the same of two dimensions", "K = A(J, L);", ("{K = J;}", "a load")),
    ("an element put, beside its subscript", "B(J) = K;", ("{K = J;}", "a load")),
    ("the same of two dimensions", "A(J, L) = K;", ("{K = J;}", "a load", "a load")),
    ("a number read by a pointer", "K = V;", ("{K = J;}",)),
    ("a call and its return", "CALL E;", ("a turn of a DO", "a step")),
    ("the same with an argument by reference", "CALL R(J);", ("a turn of a DO", "a step")),
    ("the same with a dummy argument", "CALL R(J + 1);", ("a turn of a DO", "a step", "a load")),
    ("a call of a function, its value stored", "K = F(J);", ("a turn of a DO", "a step")),
    ("ALLOCATE and FREE of CONTROLLED", "ALLOCATE N; FREE N;", ("a turn of a DO", "a step", "a step")),
    ("ALLOCATE and FREE of BASED", "ALLOCATE X SET(P); FREE P -> X;", ("a turn of a DO", "a step", "a step")),
)


def counted(program, statement, turns):
    """The instructions of a session that builds the loop and runs it."""
    lines = PROGRAM.format(turns=turns, statement=statement).splitlines()
    typed = [f"INSERT M {number} {line}" for number, line in enumerate(lines)]
    given = "\n".join(["ADD M SOURCE", *typed, "BUILD", "RUN 999999999", "QUIT", ""]).encode()
    words = ["valgrind", "--tool=callgrind", "--callgrind-out-file=/dev/null", program]
    ran = subprocess.run(words, input=given, capture_output=True, check=True)
    if str(turns + 1).encode() not in ran.stdout:
        sys.exit(f"{statement}: {ran.stdout.decode()[-200:]}")
    return int(re.search(rb"Collected : (\d+)", ran.stderr)[1])


def main():
    program = sys.argv[1] if len(sys.argv) > 1 else str(TOP / "crates" / "pliwb" / "out" / "pliwb")
    known = {}
    print("| What | Instructions |")
    print("|---|---|")
    for what, statement, less in LINES:
        many, few = (counted(program, statement, turns) for turns in (MANY, FEW))
        known[f"{{{statement}}}"] = whole = (many - few) / (MANY - FEW)
        known[what] = whole - sum(known[it] for it in less)
        print(f"| {what} | {known[what]:.0f} |", flush=True)


if __name__ == "__main__":
    main()
