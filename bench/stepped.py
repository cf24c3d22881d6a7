#!/usr/bin/env python3
"""stepped.py [FOLDER]: makes sessions, with their answers, of programs, one for each topic of programs.txt, one for each outer form of
nested.py, and one of expressions.txt; and one of the statements of types.txt.

Each program is typed as member M, its statements broken into lines at blanks, and run with 0 steps, 1 step and so on up to the number at
which it has ended, at most 30, and once with 2,000. The answers are those of meaning.py, which is written from the rules alone. Each
expression of expressions.txt is printed on a line of its own; that meaning.py gives it the type that is written there, and the columns that
follow from it, is tested. The statements of types.txt stand in one procedure, each broken before the token at which its fault stands, so that
the line of a diagnostic tells the token; that meaning.py finds the faults that are written there is tested. Without FOLDER the sessions that
stand are compared with those that would be made; the status tells whether they are the same.
"""
import re
import sys
from math import ceil
from pathlib import Path

import compared
import meaning
import nested
import reader
import typed

HERE = Path(__file__).resolve().parent
KEPT = HERE.parent / "crates" / "pli_sessions" / "data" / "stepped"
MOST_STEPS, MANY = 30, 2000
WIDTH = 110

# What the statements of types.txt stand after, and before.
DECLARED = [
    "U: PROC OPTIONS(MAIN);",
    "DCL (I, J) FIXED BIN(15), N FIXED BIN(31), C CHAR(4), V CHAR(6) VAR, B BIT(4), D BIT(8);",
    "DCL A(3) FIXED BIN(15), E(0:2) FIXED BIN(15), M(2, 2) CHAR(2), R(3) FIXED BIN(15);",
    "DCL 1 S, 2 X FIXED BIN(15), 2 Y(2) BIT(3), 1 T(2), 2 P FIXED BIN(7), 2 Q(2) CHAR(1);",
    "DCL 1 W, 2 X1 FIXED BIN(15), 2 Y1(2) BIT(3);",
    "DCL CA(3) FIXED BIN(15) CTL, CB FIXED BIN(15) CTL INIT(1), 1 CS CTL, 2 CX FIXED BIN(15), 2 CY CHAR(2);",
    "DCL (PA, PB) PTR, PV(2) PTR, XA FIXED BIN(15) BASED(PA), XB FIXED BIN(15) BASED, XV(3) CHAR(2) BASED(PB);",
    "DCL 1 XS BASED(PB), 2 XM FIXED BIN(15), 2 XN PTR;",
    "DCL (AA, AB) AREA(64), AC AREA(60), AD AREA(32), ACT AREA(64) CTL, (OA, OB) OFFSET(AA), OZ OFFSET;",
    "DCL OV(2) OFFSET(AA), 1 OS, 2 OM OFFSET(AB), 2 OI FIXED BIN(15);",
    "DCL XO FIXED BIN(15) BASED(OA), XZ FIXED BIN(15) BASED(OZ);",
    "DCL EO ENTRY(OFFSET, AREA(57)) RETURNS(OFFSET(AB));",
]
ROUTINES = [
    "L: ;",
    "F: PROC(Z) RETURNS(FIXED BIN(15)); DCL Z FIXED BIN(15); RETURN(Z); END F;",
    "G: PROC RETURNS(CHAR(3)); RETURN('G'); END G;",
    "H: PROC(Z); DCL Z FIXED BIN(15); END H;",
    "K: PROC(Z); DCL Z(3) FIXED BIN(15); END K;",
    "O: PROC(Z); DCL Z CHAR(4) VAR; END O;",
    "Z1: PROC(Z) RETURNS(BIT); DCL Z BIT(4); RETURN(Z); END Z1;",
    "PLACED: PROC(Z); DCL Z AREA(64); END PLACED;",
    "KEPT: PROC(Z); DCL Z OFFSET(AA); END KEPT;",
    "LED: PROC(Z); DCL Z PTR; END LED;",
    "FO: PROC(Z) RETURNS(OFFSET(AA)); DCL Z OFFSET; RETURN(Z); END FO;",
    "FZ: PROC RETURNS(OFFSET); RETURN(NULL); END FZ;",
    "END U;",
]


def tables(name):
    """Each topic of a file with its lines."""
    found = {}
    for line in (HERE / name).read_text().splitlines():
        if line.startswith("== "):
            lines = found.setdefault(line[3:], [])
        elif line and not line.startswith("#"):
            lines.append(line)
    return found


def topics():
    """Each topic with its programs."""
    return {topic.replace(" ", "_"): lines for topic, lines in tables("programs.txt").items()}


def broken(text):
    """A text in lines that end at blanks outside of character constants."""
    lines, line, is_quoted = [], "", False
    for word in text.split(" "):
        if line and not is_quoted and len(line) + 1 + len(word) > WIDTH:
            lines.append(line)
            line = word
        else:
            line = f"{line} {word}" if line or is_quoted else word
        is_quoted ^= word.count("'") % 2 == 1
    return [*lines, line]


def each_run(unit):
    """The numbers of steps with which a program is run, and what each answers."""
    program = meaning.Program([unit])
    for steps in [*range(MOST_STEPS + 1), MANY]:
        printed, line = program.run(steps)
        yield steps, printed + line
        if line != "OUT OF STEPS":
            return


def session(programs):
    commands, answers = [], []
    for program in programs:
        lines = ["M: PROC OPTIONS(MAIN);", *broken(program), "END M;"]
        commands += ["ADD M SOURCE", *(f"INSERT M {at} {line}" for at, line in enumerate(lines)), "BUILD"]
        answers += ["OK"] * (1 + len(lines))
        unit = meaning.Unit(lines)
        if unit.faults():
            sys.exit(f"{unit.faults()}: {program}")
        answers.append("BUILT")
        for steps, answer in each_run(unit):
            commands.append(f"RUN {steps}")
            answers.append(answer)
        commands.append("DELETE M")
        answers.append("OK")
    return "\n".join([*commands, ""]), "\n".join([*answers, ""])


def declarations_of(text):
    """What declares the names of expressions, and the functions that they call."""
    given = {
        "C": "C CHAR(4) INIT('AB')",
        "V": "V CHAR(6) VAR INIT('AB')",
        "B": "B BIT(4) INIT('1100'B)",
        "T": "T(2) FIXED BIN(13) INIT(4096, -8191)",
        "S.X": "1 S, 2 X FIXED BIN(9) INIT(-511)",
    }
    names = sorted(set(re.findall(r"(?<!')\b(?:[FGK]\d+|S\.X|[CVBT])\b", text)), key=lambda name: (name[0], len(name), name))
    numbers = {name: f"{name} FIXED BIN({name[1:]}) INIT({1 if name[0] == 'G' else 1 - 2 ** int(name[1:])})" for name in names if name[0] in "FG"}
    declared = [(given | numbers)[name] for name in names if name[0] != "K"]
    routines = [f"{name}: PROC RETURNS(FIXED BIN({name[1:]})); RETURN(1); END {name};" for name in names if name[0] == "K"]
    return [f"DCL {', '.join(declared)};"] * bool(declared), routines


def is_as_written(written, value, line):
    """Whether a value's type is that written, and the line that it was printed on has what follows from that."""
    if written.isdigit():
        columns = 1 + ceil(int(written) * 100 / 332) + 3
        return value.kind == typed.NUMBER and value.precision == int(written) and value.decimal is None and len(line) == columns + 1
    if written.startswith("D"):
        return value.decimal == int(written[1:]) and len(line) == value.decimal + 3 + 1
    kind, text = typed.constant_value(written)
    return (value.kind == typed.BITS) == (kind.kind == typed.BITS) and line == (f"{written} " if kind.kind == typed.BITS else f"{text} ")


def programs_of_expressions():
    """A program for each topic of expressions.txt."""
    for lines in tables("expressions.txt").values():
        rows = [line.split(" : ") for line in lines]
        declared, routines = declarations_of(" ".join(expression for _, expression in rows))
        program = " ".join([*declared, *(f"PUT SKIP LIST({expression});" for _, expression in rows), *routines])
        unit = meaning.Unit(["M: PROC OPTIONS(MAIN);", *broken(program), "END M;"])
        items = [dict(tree[1:])["LIST"][0] for tree in unit.tree[3:] if tree[0] == "put"]
        for (written, expression), item, line in zip(rows, items, meaning.Program([unit]).run(MANY)[0].split("\n")[1:-1], strict=True):
            if not is_as_written(written, unit.types.types[id(item)], line):
                sys.exit(f"expressions.txt: {written} : {expression} is printed as '{line}'")
        yield program


def faulty_statements():
    """The lines of the statements of types.txt, and the diagnostics, each a line and a code."""
    lines, wanted = list(DECLARED), []
    for written in (HERE / "types.txt").read_text().splitlines():
        if written and not written.startswith("#"):
            code, statement = written.split(" ", 1)
            before, mark, after = statement.partition("@")
            if before.strip():
                lines.append(before.rstrip())
            if mark:
                lines.append(after)
                wanted.append((len(lines), code))
    return lines + ROUTINES, wanted


def session_of_types():
    lines, wanted = faulty_statements()
    tokens = reader.tokens_of(lines)
    found = [(tokens[at].line, code) for at, code in meaning.Unit(lines).faults()]
    for one, other in zip([*found, None], [*wanted, None]):
        if one != other:
            sys.exit(f"types.txt: {other} is written, {one} found")
    commands = ["ADD U SOURCE", *(f"INSERT U {at} {line}" for at, line in enumerate(lines)), "BUILD"]
    diagnostics = [f"U U:{line} {code} {compared.TEXT_OF[code]}" for line, code in wanted]
    return "\n".join([*commands, ""]), "\n".join([*["OK"] * (1 + len(lines)), *diagnostics, "NOT BUILT", ""])


def main():
    is_same = True
    programs = topics() | nested.topics() | {"types_of_expressions": [*programs_of_expressions()]}
    made = {topic: session(several) for topic, several in programs.items()} | {"faults_of_types": session_of_types()}
    for topic, texts in made.items():
        for ending, text in zip(("session", "answers"), texts):
            if len(sys.argv) > 1:
                (Path(sys.argv[1]) / f"{topic}.{ending}").write_text(text)
            elif (KEPT / f"{topic}.{ending}").read_text() != text:
                print(f"{topic}.{ending} is another")
                is_same = False
    sys.exit(not is_same)


if __name__ == "__main__":
    main()
