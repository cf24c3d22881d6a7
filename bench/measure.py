#!/usr/bin/env python3
"""measure.py [PROGRAM]: times the workbench on long sessions, and prints a table: session, bytes in, bytes out, the median of five times.

The sessions are made here, so that the repository keeps none of their megabytes.
"""
import statistics
import subprocess
import sys
import time
from pathlib import Path


def member(name, lines):
    """The commands that type a member of these lines."""
    yield f"ADD {name} SOURCE"
    for number, line in enumerate(lines):
        yield f"INSERT {name} {number} {line}"


def included(name, lines):
    """The commands that type an INCLUDE member of these lines."""
    yield f"ADD {name} INCLUDE"
    for number, line in enumerate(lines):
        yield f"INSERT {name} {number} {line}"


def including(name, member):
    """A unit whose statements are those of an included member."""
    return [f"{name}: PROC OPTIONS(MAIN);", "DCL X FIXED BIN(31), Y FIXED BIN(31);", f"%INCLUDE {member};", f"END {name};"]


def wide(count):
    """Lines of 115 bytes with every kind of token that the lexer knows and a comment; as text they are one fault at their first statement."""
    for _ in range(count):
        yield "ABCDEFGHIJ = 'a string''s text' || '10110'B | '7F'B4 & 1234567890 - 101B ^= (K->L.M <= N_1$); /* comment */ Y = 1; Z = 2;"[:120]


def procedure(name, count):
    """A procedure of so many lines: it declares two variables, assigns one to the other, and prints."""
    yield f"{name}: PROC OPTIONS(MAIN);"
    yield "DCL X FIXED BIN(31), Y FIXED BIN(31);"
    for _ in range(count - 4):
        yield "X = Y;"
    yield "PUT LIST(X + 1);"
    yield f"END {name};"


def unit(name, statements):
    """A procedure of these statements, as many on a line as there is room for."""
    yield f"{name}: PROC OPTIONS(MAIN);"
    line = ""
    for statement in statements:
        if len(line) + len(statement) > 120:
            yield line
            line = ""
        line += statement
    yield line
    yield f"END {name};"


def forms(count):
    """Statements of every kind, of about so many tokens."""
    group = (
        "DO I=1 TO N BY 2 WHILE(B(I));A(I)=P->S.X(I,J)*2+LENGTH(C||'AB');IF A(I)^=0&B(J)THEN CALL F(A,(X),-Y);ELSE GOTO L;END;",
        "BEGIN;DCL 1 S BASED(P),2 X(10)FIXED BIN(31),2 C CHAR(8)VAR;ALLOCATE S IN(A)SET(Q);FREE P->S;END;",
        "ON ZDIV PUT SKIP LIST(X,Y+1);SIGNAL ZDIV;REVERT ZDIV;",
    )
    yield "DCL(I,N,J,Y)FIXED BIN,A(9)FIXED BIN,B(9)BIT,(P,Q)PTR,C CHAR(8),F ENTRY;"
    yield "DCL 1 S BASED(P),2 X(9,9)FIXED BIN(31);L:;"
    for _ in range(count // (73 + 47 + 19)):
        yield from group


def listed(parts):
    """Parts with commas between them, as statements may be broken between tokens."""
    return [part + "," for part in parts[:-1]] + parts[-1:]


def names(count, uses):
    """A declaration of so many names, and so many uses of them."""
    yield from ["DCL ("] + listed([f"N{k}" for k in range(count)]) + [") FIXED BIN(31);"]
    yield from ["PUT LIST("] + listed([f"N{k * 7 % count}" for k in range(uses)]) + [");"]


def structure(count, uses):
    """A structure of so many members, two levels deep, and so many qualified uses of them."""
    members = [f"3 M{k} FIXED BIN" if k % 100 else f"2 G{k // 100}, 3 M{k} FIXED BIN" for k in range(count)]
    yield from ["DCL "] + listed(["1 S"] + members) + [";"]
    yield from ["PUT LIST("] + listed([f"G{k * 7 % count // 100}.M{k * 7 % count}" for k in range(uses)]) + [");"]


def straight(count):
    """So many statements of arithmetic, strings, subscripts and structures, one after the other."""
    yield "DCL (X,Y) FIXED BIN(31),(I,J) FIXED BIN(15),A(100) FIXED BIN(31),S CHAR(20) VAR,T CHAR(10) INIT('ABCDEFGHIJ');"
    yield "DCL 1 P(10),2 Q FIXED BIN(31),2 R(3) FIXED BIN(15);I=1;J=2;"
    group = ("X=MOD(X*7+Y,1000);", "A(I+3)=A(J)+X;", "S=SUBSTR(T,J,4)||'-';", "P(J).R(I)=P(I).R(J)+1;", "IF X>Y THEN Y=X-1;ELSE Y=Y-1;")
    for _ in range(count // 6):
        yield from group
    yield "PUT LIST(X,Y,A(4),S,P(2).R(1));"


def filled(count):
    """An array of so many elements, each of which is assigned and printed."""
    yield f"DCL A({count}) FIXED BIN(15);"
    yield from [f"A({k})={k};" for k in range(1, count + 1)]
    yield from ["PUT LIST("] + listed([f"A({k})" for k in range(1, count + 1)]) + [");"]


def rebuilt(name, line, times):
    """So many BUILDs, each after an edit: the first line of a member gets a null statement, or loses it again, so that its unit is compiled."""
    return [command for turn in range(times) for command in (f"REPLACE {name} 1 {line}{';' * (turn % 2)}", "BUILD")]


def sessions():
    heading = "M: PROC OPTIONS(MAIN);"
    one = list(member("M", procedure("M", 9999)))
    yield "one member of 9,999 lines, built and run", one + ["BUILD", "RUN"]
    yield "the same, built ten times", one + rebuilt("M", heading, 10)
    many = [command for k in range(30) for command in member(f"M{k}", procedure(f"M{k}", 2000))]
    yield "thirty members of 2,000 lines, built", many + ["BUILD"]
    common = list(included("K", ["X = Y;"] * 1000))
    units = [command for k in range(100) for command in member(f"U{k}", including(f"U{k}", "K"))]
    yield "100 units that include one member of 1,000 lines", common + units + ["BUILD"]
    nested = [command for k in range(1, 998) for command in included(f"K{k}", [f"%INCLUDE K{k + 1};"])]
    chain = nested + list(included("K998", ["END;"])) + list(member("M", ["M: PROC OPTIONS(MAIN); %INCLUDE K1;"]))
    yield "a chain of 999 members, built ten times", chain + rebuilt("M", "M: PROC OPTIONS(MAIN); %INCLUDE K1;", 10)
    comments = list(included("K", ["/* NOTHING */"] * 9999))
    hollow = list(member("M", ["M: PROC OPTIONS(MAIN);"] + ["%INCLUDE K; " * 10] * 4990 + ["END;"]))
    yield "9,999 lines of comments included 49,900 times", comments + hollow + ["BUILD"]
    lexed = [command for k in range(9) for command in member(f"L{k}", wide(9300))]
    yield "ten megabytes of tokens, typed", lexed
    yield "the same, built: each text is lexed", lexed + ["BUILD"]
    yield "a unit of 65,000 statements, built ten times", list(member("M", unit("M", [";"] * 65000))) + rebuilt("M", heading, 10)
    yield "a unit of 190,000 tokens in every form, built ten times", list(member("M", unit("M", forms(190000)))) + rebuilt("M", heading, 10)
    chained = ["X=" + "+".join(["Y"] * 58)] + ["+" + "+".join(["Y"] * 59)] * 1650 + [";"]
    yield "one statement of 195,000 tokens, built ten times", list(member("M", ["M: PROC;"] + chained + ["END;"])) + rebuilt("M", "M: PROC;", 10)
    yield "a unit of 60,000 names and 39,000 uses, built ten times", list(member("M", unit("M", names(60000, 39000)))) + rebuilt("M", heading, 10)
    yield "a structure of 25,000 members and 12,000 uses, built ten times", list(member("M", unit("M", structure(25000, 12000)))) + rebuilt("M", heading, 10)
    printing = ["M: PROC OPTIONS(MAIN);", "DCL X FIXED BIN(31);"] + ["PUT LIST(X, X, X, X, X, X, X, X, X, X);"] * 1500 + ["END;"]
    yield "3,000 statements of arithmetic, strings and subscripts, 67 times", list(member("M", unit("M", straight(3000)))) + ["BUILD"] + ["RUN"] * 67
    yield "an array of 2,500 elements filled and printed, ten times", list(member("M", unit("M", filled(2500)))) + ["BUILD"] + ["RUN"] * 10
    yield "15,000 items printed, ten times", list(member("M", printing)) + ["BUILD"] + ["RUN"] * 10


def main():
    program = sys.argv[1:] or [str(Path(__file__).resolve().parent.parent / "bin" / "pliwb"), "--proved"]
    subprocess.run(program, input=b"", stdout=subprocess.DEVNULL, check=True)
    print(f"{'session':65} {'in':>10} {'out':>10} {'median':>9}")
    for title, commands in sessions():
        text = "".join(command + "\n" for command in commands).encode()
        times, answers = [], b""
        for _ in range(5):
            begin = time.perf_counter()
            answers = subprocess.run(program, input=text, stdout=subprocess.PIPE, check=True).stdout
            times.append(time.perf_counter() - begin)
        print(f"{title:65} {len(text):10,} {len(answers):10,} {statistics.median(times):8.3f}s")


if __name__ == "__main__":
    main()
